// Shows the rows and sections of the parts whose row has what was typed.
var find = document.getElementById("find");
find.addEventListener("input", function () {
  var wanted = find.value.toLowerCase();
  document.querySelectorAll(".parts tr[id]").forEach(function (row) {
    row.hidden = row.textContent.toLowerCase().indexOf(wanted) < 0;
  });
  document.querySelectorAll("section[data-row]").forEach(function (section) {
    section.hidden = document.getElementById(section.dataset.row).hidden;
  });
  if (wanted !== "") { document.getElementById("passed").open = true; }
});
// A link to what stands in a closed list, or is one, opens it.
function show() {
  var target = document.getElementById(decodeURIComponent(location.hash.slice(1)));
  var list = target && target.closest("details");
  if (list && !list.open) { list.open = true; target.scrollIntoView(); }
}
window.addEventListener("hashchange", show);
show();
// On paper the reasons are open.
window.addEventListener("beforeprint", function () {
  document.querySelectorAll("details.why").forEach(function (one) { one.open = true; });
});
// A wafer's map: dies by place, found when they are first asked for.
document.querySelectorAll(".map").forEach(function (map) {
  var pitch = 24, edge = 4, dies = null, places = {}, now = -1;
  var ring = map.querySelector("rect");
  var line = map.parentNode.querySelector(".die");
  function all() {
    if (dies !== null) { return dies; }
    dies = map.dataset.dies.split(" ").map(function (die) { return die.split(",").map(Number); });
    dies.sort(function (a, b) { return a[0] - b[0] || a[1] - b[1]; });
    dies.forEach(function (die, n) { places[die[0] + "," + die[1]] = n; });
    return dies;
  }
  function row(n) { return document.getElementById("row-" + all()[n][2]); }
  function name(n) {
    var cells = row(n).cells;
    return cells[0].textContent + ": " + cells[1].textContent.slice(2) + ", bin " + cells[2].textContent;
  }
  function at(event) {
    var box = map.getBoundingClientRect();
    var place = function (where, from, size, whole) { return Math.floor(((where - from) * whole / size - edge + 2) / pitch); };
    var found = places[place(event.clientY, box.top, box.height, map.height.baseVal.value) + "," +
      place(event.clientX, box.left, box.width, map.width.baseVal.value)];
    return found === undefined ? -1 : found;
  }
  function say(n) {
    line.textContent = n < 0 ? "\u00a0" : name(n);
    map.querySelector("title").textContent = n < 0 ? "" : name(n);
  }
  function mark(n) {
    now = n;
    ring.setAttribute("x", edge + pitch * all()[n][1]);
    ring.setAttribute("y", edge + pitch * all()[n][0]);
    say(n);
  }
  function go(n) {
    location.hash = "#" + row(n).id;
    show();
  }
  function step(from, ahead, wanted) {
    for (var n = from + ahead; n >= 0 && n < dies.length; n += ahead) { if (wanted(n)) { return n; } }
    return from;
  }
  map.addEventListener("mousemove", function (event) { all(); say(at(event)); });
  map.addEventListener("mouseleave", function () { say(now); });
  map.addEventListener("click", function (event) {
    all();
    var n = at(event);
    if (n >= 0) { mark(n); go(n); }
  });
  map.addEventListener("focus", function () {
    if (now >= 0 || !map.matches(":focus-visible")) { return; }
    all();
    mark(step(-1, 1, failed) < 0 ? 0 : step(-1, 1, failed));
  });
  function failed(n) { return !row(n).classList.contains("pass"); }
  map.addEventListener("keydown", function (event) {
    if (now < 0) { mark(0); }
    var here = all()[now];
    var keys = {
      ArrowRight: function () { return step(now, 1, function () { return true; }); },
      ArrowLeft: function () { return step(now, -1, function () { return true; }); },
      ArrowDown: function () { return step(now, 1, function (n) { return dies[n][1] === here[1]; }); },
      ArrowUp: function () { return step(now, -1, function (n) { return dies[n][1] === here[1]; }); },
      PageDown: function () { return step(now, 1, failed); },
      PageUp: function () { return step(now, -1, failed); },
      Home: function () { return 0; },
      End: function () { return dies.length - 1; }
    };
    if (event.key === "Enter") { go(now); } else if (keys[event.key]) { mark(keys[event.key]()); } else { return; }
    event.preventDefault();
  });
});
