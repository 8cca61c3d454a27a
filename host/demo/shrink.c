/* A small preview of a 16-bit PGM picture, from standard input to standard output: `shrink N` takes the mean of each N x N square, as 8 bits. */
#include <stdint.h>
#include <stdio.h>
#include <stdlib.h>

typedef struct Picture {
    unsigned width, height, white;
} Picture;

/* Adds N lines of the picture up, square by square. */
static int add_lines(unsigned n, Picture picture, uint8_t *line, unsigned long *sums)
{
    for (unsigned i = 0; i < n * picture.width; i++) {
        unsigned column = i % picture.width;
        if (column == 0 && fread(line, 2, picture.width, stdin) != picture.width)
            return 0;
        sums[column / n] += (unsigned)line[2 * column] << 8 | line[2 * column + 1];
    }
    return 1;
}

static int put_means(unsigned n, Picture picture, const unsigned long *sums)
{
    for (unsigned i = 0; i < picture.width / n; i++)
        if (putchar((int)(sums[i] * 255 / picture.white / n / n)) == EOF)
            return 0;
    return 1;
}

static int shrink(unsigned n, Picture picture)
{
    uint8_t *line = malloc(2 * (size_t)picture.width);
    int good = line != NULL;
    printf("P5\n%u %u\n255\n", picture.width / n, picture.height / n);
    for (unsigned i = 0; good && i < picture.height / n; i++) {
        unsigned long *sums = calloc(picture.width / n + 1, sizeof *sums);
        good = sums && add_lines(n, picture, line, sums) && put_means(n, picture, sums);
        free(sums);
    }
    free(line);
    return good && fflush(stdout) == 0;
}

int main(int count, char **words)
{
    Picture picture;
    unsigned n = count == 2 ? (unsigned)atoi(words[1]) : 0;
    if (n < 1 || n > 1000 || scanf("P5 %u %u %u", &picture.width, &picture.height, &picture.white) != 3 ||
        getchar() != '\n' || picture.white < 256 || picture.width > 65535) {
        fputs("shrink: give a number, and a 16-bit PGM picture on standard input\n", stderr);
        return 2;
    }
    return shrink(n, picture) ? 0 : 1;
}
