/* frontend CORE ROM FRAMES STATE: lets a libretro core run a ROM without a display, 20 frames and then FRAMES more,
 * prints the tenth percentile of the time of a frame in microseconds, and writes the core's state to STATE. */
#include <dlfcn.h>
#include <libretro.h>
#include <stdio.h>
#include <stdlib.h>
#include <time.h>

static void quiet(enum retro_log_level level, const char *format, ...) { (void)level, (void)format; }

static bool environment(unsigned command, void *data)
{
    if (command == RETRO_ENVIRONMENT_GET_LOG_INTERFACE) {
        struct retro_log_callback *log = data;
        log->log = quiet;
        return true;
    }
    if (command == RETRO_ENVIRONMENT_GET_SYSTEM_DIRECTORY || command == RETRO_ENVIRONMENT_GET_SAVE_DIRECTORY) {
        *(const char **)data = getenv("TMPDIR") ? getenv("TMPDIR") : "/tmp";
        return true;
    }
    return command == RETRO_ENVIRONMENT_SET_PIXEL_FORMAT;
}

static void show(const void *pixels, unsigned width, unsigned height, size_t pitch)
{
    (void)pixels, (void)width, (void)height, (void)pitch;
}

static void play(int16_t left, int16_t right) { (void)left, (void)right; }
static size_t play_all(const int16_t *samples, size_t frames) { (void)samples; return frames; }
static void poll_pad(void) {}
static int16_t pad(unsigned port, unsigned device, unsigned index, unsigned id)
{
    (void)port, (void)device, (void)index, (void)id;
    return 0;
}

static void *core;

static void *find(const char *name)
{
    void *found = dlsym(core, name);
    if (!found) {
        fprintf(stderr, "frontend: the core has no %s\n", name);
        exit(1);
    }
    return found;
}

#define CALL(name) ((__typeof__(&name))find(#name))

static double microseconds(void)
{
    struct timespec t;
    clock_gettime(CLOCK_PROCESS_CPUTIME_ID, &t);
    return 1e6 * (double)t.tv_sec + 1e-3 * (double)t.tv_nsec;
}

static int ascending(const void *a, const void *b)
{
    const double *x = a, *y = b;
    return (*x > *y) - (*x < *y);
}

int main(int argc, char **argv)
{
    int frames = argc == 5 ? atoi(argv[3]) : 0;
    if (frames < 1)
        return 2;
    core = dlopen(argv[1], RTLD_NOW);
    if (!core) {
        fprintf(stderr, "frontend: %s\n", dlerror());
        return 1;
    }
    CALL(retro_set_environment)(environment);
    CALL(retro_set_video_refresh)(show);
    CALL(retro_set_audio_sample)(play);
    CALL(retro_set_audio_sample_batch)(play_all);
    CALL(retro_set_input_poll)(poll_pad);
    CALL(retro_set_input_state)(pad);
    CALL(retro_init)();
    struct retro_game_info game = {.path = argv[2]};
    if (!CALL(retro_load_game)(&game)) {
        fprintf(stderr, "frontend: the core does not take the ROM\n");
        return 1;
    }
    void (*run)(void) = CALL(retro_run);
    for (int i = 0; i < 20; i++)
        run();
    double *times = calloc((size_t)frames, sizeof *times);
    for (int i = 0; i < frames; i++) {
        double begun = microseconds();
        run();
        times[i] = microseconds() - begun;
    }
    qsort(times, (size_t)frames, sizeof *times, ascending);
    printf("%.3f\n", times[frames / 10]);
    size_t size = CALL(retro_serialize_size)();
    void *state = calloc(1, size);
    FILE *file = fopen(argv[4], "wb");
    if (!state || !file || !CALL(retro_serialize)(state, size) || fwrite(state, 1, size, file) != size)
        return 1;
    return fclose(file);
}
