/* All of libvb's code in one section, so that a program's link moves it as a whole and in steps of 64 bytes. First the
 * guard, then the fast path of a run, at the start of a line: of the four places it is the fastest, or within 7 % of it, in
 * every measured loop (docs/SPEED.md; guard/places measures them again). */
SECTIONS
{
    .text :
    {
        *guard.o(.text)
        . = ALIGN(64);
        . += PLACE;
        *(.text.processor_fast::stretch::inside)
        *(.text .text.*)
    }
}
