/* capture.c: runs a cartridge in a libretro core and writes what the display shows as captures, one PNG per eye and frame.
 *
 * Beetle VB of Debian has no side-by-side mode; its anaglyph mode "red & blue" holds both eyes in one picture: the left one
 * is its red, the right one its blue. */
#define _GNU_SOURCE
#include <dlfcn.h>
#include <errno.h>
#include <math.h>
#include <signal.h>
#include <stdarg.h>
#include <stdbool.h>
#include <stdint.h>
#include <stdio.h>
#include <stdlib.h>
#include <string.h>
#include <unistd.h>

#include <libretro.h>
#include <png.h>

enum { WIDTH = 384, HEIGHT = 224, MOST_FRAMES = 64 };

static const char usage[] =
    "usage: capture CORE ROM PREFIX [--frames N] [--wait N] [--brightness A,B,C] [--seconds N]\n"
    "Runs ROM in the libretro core CORE and writes PREFIX.frame0.left.png, PREFIX.frame0.right.png and so on: 384 by 224\n"
    "pixels in grey 00, 55, AA, FF for the values 0 to 3. Frame 0 is the first frame of the display that is not dark.\n"
    "  --frames N          so many frames (1 to 64; default 2)\n"
    "  --wait N            the most dark frames before it; after them dark ones are written (default 500)\n"
    "  --brightness A,B,C  the cartridge's BRTA, BRTB and BRTC (default 32,64,32)\n"
    "  --seconds N         gives up after so long (default 60)\n"
    "Exit status: 0 written; 1 the core failed, or a pixel's brightness matches none of the four values; 2 wrong arguments;\n"
    "3 written, but every frame was dark; 4 out of time.\n";

/* Messages go here: standard error itself is closed to the core, which has much to say there. */
static int messages = 2;

static void fail(int status, const char *format, ...)
{
    va_list list;
    va_start(list, format);
    dprintf(messages, "capture: ");
    vdprintf(messages, format, list);
    dprintf(messages, "\n");
    va_end(list);
    _exit(status);
}

static void out_of_time(int number)
{
    static const char text[] = "capture: out of time\n";
    (void)number;
    if (write(messages, text, sizeof text - 1) < 0)
        _exit(4);
    _exit(4);
}

/* What the core showed last: a red and a blue sample of each pixel, 0 to 255. */
static uint8_t shown[2][WIDTH * HEIGHT];
static bool any_shown;
static enum retro_pixel_format format = RETRO_PIXEL_FORMAT_0RGB1555;

static void no_log(enum retro_log_level level, const char *text, ...)
{
    (void)level;
    (void)text;
}

static bool environment(unsigned command, void *data)
{
    switch (command) {
    case RETRO_ENVIRONMENT_GET_LOG_INTERFACE:
        ((struct retro_log_callback *)data)->log = no_log;
        return true;
    case RETRO_ENVIRONMENT_GET_SYSTEM_DIRECTORY:
    case RETRO_ENVIRONMENT_GET_SAVE_DIRECTORY:
        *(const char **)data = "/nonexistent"; /* no firmware, no saved game */
        return true;
    case RETRO_ENVIRONMENT_SET_PIXEL_FORMAT:
        format = *(const enum retro_pixel_format *)data;
        return true;
    case RETRO_ENVIRONMENT_SET_VARIABLES:
    case RETRO_ENVIRONMENT_SET_INPUT_DESCRIPTORS:
        return true;
    case RETRO_ENVIRONMENT_GET_VARIABLE: {
        struct retro_variable *variable = data;
        variable->value = strcmp(variable->key, "vb_anaglyph_preset") == 0 ? "red & blue" : NULL;
        return variable->value != NULL;
    }
    default:
        return false;
    }
}

static void video(const void *pixels, unsigned width, unsigned height, size_t pitch)
{
    if (!pixels)
        return; /* the same frame again */
    if (width != WIDTH || height != HEIGHT)
        fail(1, "the core shows %u by %u pixels; a display has %d by %d", width, height, WIDTH, HEIGHT);
    for (unsigned y = 0; y < height; y++) {
        const uint8_t *row = (const uint8_t *)pixels + y * pitch;
        for (unsigned x = 0; x < width; x++) {
            uint32_t red, blue;
            if (format == RETRO_PIXEL_FORMAT_XRGB8888) {
                uint32_t pixel = ((const uint32_t *)(const void *)row)[x];
                red = pixel >> 16 & 0xFF;
                blue = pixel & 0xFF;
            } else { /* five bits each; red's place differs */
                uint16_t pixel = ((const uint16_t *)(const void *)row)[x];
                red = (pixel >> (format == RETRO_PIXEL_FORMAT_RGB565 ? 11 : 10) & 31) * 255 / 31;
                blue = (pixel & 31) * 255 / 31;
            }
            shown[0][y * WIDTH + x] = (uint8_t)red;
            shown[1][y * WIDTH + x] = (uint8_t)blue;
        }
    }
    any_shown = true;
}

static void sample(int16_t left, int16_t right) { (void)left, (void)right; }
static size_t samples(const int16_t *data, size_t frames) { (void)data; return frames; }
static void poll_input(void) {}
static int16_t input(unsigned port, unsigned device, unsigned index, unsigned id)
{
    (void)port, (void)device, (void)index, (void)id;
    return 0;
}

/* The sample that each value has: the time that it is lit, of 128 units at most, on a display of gamma 2.2. */
static double levels[4];

static void set_levels(const unsigned brightness[3])
{
    unsigned lit[4] = {0, brightness[0], brightness[1], brightness[0] + brightness[1] + brightness[2]};
    for (int value = 0; value < 4; value++)
        levels[value] = 255 * pow(fmin(lit[value], 128) / 128.0, 1 / 2.2);
    for (int value = 0; value < 3; value++)
        if (levels[value + 1] - levels[value] < 24)
            fail(2, "values %d and %d are too close in brightness", value, value + 1);
}

/* The value whose level is nearest; one that lies further off than rounding explains has no value. */
static uint8_t value_of(uint8_t seen, int eye, int at)
{
    int nearest = 0;
    for (int value = 1; value < 4; value++)
        if (fabs(seen - levels[value]) < fabs(seen - levels[nearest]))
            nearest = value;
    if (fabs(seen - levels[nearest]) > 8)
        fail(1, "%s eye, column %d, row %d: brightness %d matches none of the four values", eye ? "right" : "left", at % WIDTH,
             at / WIDTH, seen);
    return (uint8_t)nearest;
}

static bool dark(void)
{
    for (int at = 0; at < WIDTH * HEIGHT; at++)
        if (shown[0][at] || shown[1][at])
            return false;
    return true;
}

static void write_png(const char *prefix, int frame, int eye, const uint8_t *greys)
{
    char *name;
    if (asprintf(&name, "%s.frame%d.%s.png", prefix, frame, eye ? "right" : "left") < 0)
        fail(1, "out of memory");
    png_image image = {.version = PNG_IMAGE_VERSION, .width = WIDTH, .height = HEIGHT, .format = PNG_FORMAT_GRAY};
    if (!png_image_write_to_file(&image, name, 0, greys, WIDTH, NULL))
        fail(1, "%s: %s", name, image.message);
    free(name);
}

static long number(const char *option, const char *text, long least, long most)
{
    char *end;
    errno = 0;
    long value = text ? strtol(text, &end, 10) : 0;
    if (!text || end == text || *end || errno || value < least || value > most)
        fail(2, "%s is `%s`; it must be a whole number from %ld to %ld", option, text ? text : "", least, most);
    return value;
}

static void *symbol(void *core, const char *name)
{
    void *found = dlsym(core, name);
    if (!found)
        fail(1, "the core has no %s", name);
    return found;
}

#define CORE(name) __typeof__(&name) core_##name = (__typeof__(&name))symbol(core, #name)

int main(int count, char **arguments)
{
    if (count == 2 && strcmp(arguments[1], "--help") == 0)
        return fputs(usage, stdout) < 0;
    if (count < 4) {
        fputs(usage, stderr);
        return 2;
    }
    long frames = 2, wait = 500, seconds = 60;
    unsigned brightness[3] = {32, 64, 32};
    for (int n = 4; n < count; n += 2) {
        const char *option = arguments[n], *text = arguments[n + 1];
        char more;
        if (strcmp(option, "--frames") == 0)
            frames = number(option, text, 1, MOST_FRAMES);
        else if (strcmp(option, "--wait") == 0)
            wait = number(option, text, 0, 100000);
        else if (strcmp(option, "--seconds") == 0)
            seconds = number(option, text, 1, 3600);
        else if (strcmp(option, "--brightness") != 0)
            fail(2, "unknown option `%s`", option);
        else if (!text || sscanf(text, "%3u,%3u,%3u%c", &brightness[0], &brightness[1], &brightness[2], &more) != 3)
            fail(2, "--brightness is `%s`; it must be three numbers, as 32,64,32", text ? text : "");
    }
    set_levels(brightness);
    signal(SIGALRM, out_of_time);
    alarm((unsigned)seconds);

    messages = dup(2);
    if (messages < 0 || !freopen("/dev/null", "w", stdout) || !freopen("/dev/null", "w", stderr))
        fail(1, "/dev/null: %s", strerror(errno));
    void *core = dlopen(arguments[1], RTLD_NOW);
    if (!core)
        fail(1, "%s", dlerror());
    CORE(retro_set_environment);
    CORE(retro_set_video_refresh);
    CORE(retro_set_audio_sample);
    CORE(retro_set_audio_sample_batch);
    CORE(retro_set_input_poll);
    CORE(retro_set_input_state);
    CORE(retro_init);
    CORE(retro_load_game);
    CORE(retro_run);
    core_retro_set_environment(environment);
    core_retro_set_video_refresh(video);
    core_retro_set_audio_sample(sample);
    core_retro_set_audio_sample_batch(samples);
    core_retro_set_input_poll(poll_input);
    core_retro_set_input_state(input);
    core_retro_init();
    struct retro_game_info game = {.path = arguments[2]};
    if (!core_retro_load_game(&game))
        fail(1, "%s: the core does not load it", arguments[2]);

    long waited = 0;
    do
        core_retro_run();
    while (dark() && ++waited <= wait);
    if (!any_shown)
        fail(1, "the core shows nothing");
    bool all_dark = waited > wait;

    /* every value is worked out before any file is written */
    static uint8_t greys[MOST_FRAMES][2][WIDTH * HEIGHT];
    for (long frame = 0; frame < frames; frame++) {
        for (int eye = 0; eye < 2; eye++)
            for (int at = 0; at < WIDTH * HEIGHT; at++)
                greys[frame][eye][at] = (uint8_t)(85 * value_of(shown[eye][at], eye, at));
        core_retro_run();
    }
    for (long frame = 0; frame < frames; frame++)
        for (int eye = 0; eye < 2; eye++)
            write_png(arguments[3], (int)frame, eye, greys[frame][eye]);
    if (all_dark)
        fail(3, "%s: every one of %ld frames was dark", arguments[2], waited);
    _exit(0); /* the core's own ending is not needed */
}
