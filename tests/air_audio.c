/* air_audio.c - link packets as the sound that a receiver's discriminator gives. Standard input has one packet a line,
 * a character to a bit, from opening to closing flag; standard output gets a WAV file, mono, of 16 bits and 48,000
 * samples a second.
 *
 * The modulation is GMSK, so the sound is the sender's frequency: a level that a 0 changes and a 1 keeps, smoothed by a
 * Gaussian filter. */
#include <math.h>
#include <stdbool.h>
#include <stdint.h>
#include <stdio.h>
#include <string.h>

enum {
    BITS_A_SECOND = 9600,
    SAMPLES_A_BIT = 5,
    SAMPLE_BYTES = 2,
    LOUDNESS = 20000,
    PACKET_MAX = 236,
    PACKETS_MAX = 1000,
    TRAINING_BITS = 24,
    BUFFER_BITS = 4,
    SILENCE_BITS = 64, /* before the first packet and after each */
    BITS_MAX = SILENCE_BITS + PACKETS_MAX * (TRAINING_BITS + PACKET_MAX + BUFFER_BITS + SILENCE_BITS),
    REACH = 2 /* how many bits away a level still sounds; further off, less than one part of LOUDNESS is left */
};

/* The filter's bandwidth times the duration of a bit, as ITU-R M.1371 has it for senders. */
static const double bandwidth_by_bit = 0.4;

/* The training lets a receiver find where bits begin; the buffer keeps the sender on until the closing flag is through
 * the filter. */
static const char training[TRAINING_BITS + 1] = "010101010101010101010101";
static const char buffer[BUFFER_BITS + 1] = "0000";

/* One level to a bit: 1 or -1, and 0 where nobody sends. */
struct air {
    int8_t levels[BITS_MAX];
    size_t len;
};

static void put_silence(struct air *air)
{
    memset(air->levels + air->len, 0, SILENCE_BITS);
    air->len += SILENCE_BITS;
}

/* Takes the level before the bits and returns the one after them. */
static int8_t put_bits(struct air *air, int8_t level, const char *bits)
{
    for (; *bits != '\0'; bits++) {
        level = *bits == '0' ? (int8_t)-level : level;
        air->levels[air->len++] = level;
    }
    return level;
}

static void put_packet(struct air *air, const char *packet)
{
    int8_t level = put_bits(air, 1, training);
    level = put_bits(air, level, packet);
    put_bits(air, level, buffer);
    put_silence(air);
}

static bool is_packet(const char *line)
{
    size_t len = strspn(line, "01");
    return len > 0 && len <= PACKET_MAX && line[len] == '\0';
}

/* False where a line is no packet, or where there are more than there is room for. */
static bool read_packets(struct air *air)
{
    char line[PACKET_MAX + 2];
    put_silence(air);
    for (unsigned packets = 0; fgets(line, sizeof line, stdin) != NULL; packets++) {
        line[strcspn(line, "\n")] = '\0';
        if (packets == PACKETS_MAX || !is_packet(line)) {
            return false;
        }
        put_packet(air, line);
    }
    return true;
}

/* How much of a step of the level is through the filter, so many bits after it. */
static double passed_through(double bits)
{
    const double pi = 3.14159265358979323846;
    return 0.5 + 0.5 * erf(bits * bandwidth_by_bit * pi * sqrt(2.0 / log(2.0)));
}

/* The filtered level at a time in bits. Each level comes with the beginning of its bit and goes with its end. */
static double filtered(const struct air *air, double time)
{
    size_t now = (size_t)time;
    double sum = 0.0;
    for (size_t bit = now - REACH; bit <= now + REACH; bit++) {
        double since = time - (double)bit;
        sum += air->levels[bit] * (passed_through(since) - passed_through(since - 1.0));
    }
    return sum;
}

/* Low byte first, as everything in a WAV file. */
static void write_number(uint32_t number, unsigned bytes)
{
    for (; bytes > 0; bytes--) {
        putchar((int)(number & 0xFF));
        number >>= 8;
    }
}

static void write_header(size_t samples)
{
    const uint32_t sample_bytes = (uint32_t)samples * SAMPLE_BYTES;
    const uint32_t samples_a_second = BITS_A_SECOND * SAMPLES_A_BIT;
    fputs("RIFF", stdout);
    write_number(36 + sample_bytes, 4); /* what follows, 36 bytes of it header */
    fputs("WAVEfmt ", stdout);
    write_number(16, 4); /* how many bytes say what the samples are */
    write_number(1, 2);  /* plain numbers */
    write_number(1, 2);  /* mono */
    write_number(samples_a_second, 4);
    write_number(samples_a_second * SAMPLE_BYTES, 4);
    write_number(SAMPLE_BYTES, 2);
    write_number(8 * SAMPLE_BYTES, 2);
    fputs("data", stdout);
    write_number(sample_bytes, 4);
}

/* The outermost bits are silence and have no sound of their own: they are there for the filter's reach. */
static void write_sound(const struct air *air)
{
    const size_t first = REACH * SAMPLES_A_BIT;
    const size_t end = (air->len - REACH) * SAMPLES_A_BIT;
    write_header(end - first);
    for (size_t sample = first; sample < end; sample++) {
        double middle = ((double)sample + 0.5) / SAMPLES_A_BIT;
        write_number((uint32_t)lround(LOUDNESS * filtered(air, middle)), SAMPLE_BYTES);
    }
}

static int failed(const char *what)
{
    fprintf(stderr, "air_audio: %s\n", what);
    return 1;
}

int main(void)
{
    static struct air air;
    if (!read_packets(&air)) {
        return failed("a line is no packet, or there are too many");
    }
    if (ferror(stdin) != 0) {
        return failed("standard input failed");
    }
    write_sound(&air);
    if (fflush(stdout) != 0 || ferror(stdout) != 0) {
        return failed("standard output failed");
    }
    return 0;
}
