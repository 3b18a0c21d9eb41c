/* Writes a sample picture of 400 x 240 pixels to standard output, as a binary PPM: a sky with a sun over a lake, balls
   with soft shades, a strip of greys, and letters with hard edges. */
#include <stdint.h>
#include <stdio.h>

enum { WIDTH = 400, HEIGHT = 240, LETTER = 4 };

struct colour { double red, green, blue; };

static struct colour mix(struct colour a, struct colour b, double t)
{
    t = t < 0 ? 0 : t > 1 ? 1 : t;
    return (struct colour){ .red = a.red + t * (b.red - a.red), .green = a.green + t * (b.green - a.green),
                            .blue = a.blue + t * (b.blue - a.blue) };
}

/* Sky from blue to orange above row 150, a lake that mirrors it below. */
static struct colour background(double x, double y)
{
    const struct colour high = { 40, 70, 150 }, low = { 250, 190, 120 }, deep = { 20, 40, 80 }, sun = { 255, 235, 170 };
    const double horizon = 150;
    double wave = ((int)y * 37 + (int)(x / 9) * 11) % 7 - 3;
    struct colour sky = y < horizon ? mix(high, low, y / horizon) : mix(low, deep, (y - horizon) / 70 + wave / 40);
    double dx = x - 285, dy = (y < horizon ? y - 118 : (2 * horizon - y - 118) / 1.6);
    double glow = 1 - (dx * dx + dy * dy) / (y < horizon ? 8100 : 3600);
    double disc = (900 - dx * dx - dy * dy) / 60;
    return mix(sky, sun, y < horizon ? (disc > glow * 0.6 ? disc : glow * 0.6) : glow * 0.7);
}

/* A ball lit from the upper left, over what is behind it. */
static struct colour ball(struct colour behind, struct colour ink, double x, double y, double cx, double cy, double r)
{
    const struct colour white = { 255, 255, 255 }, black = { 0, 0, 0 };
    double dx = x - cx, dy = y - cy, inside = (r * r - dx * dx - dy * dy) / (2 * r);
    double hx = dx + r / 3, hy = dy + r / 3, light = (hx * hx + hy * hy) / (r * r);
    struct colour shade = light < 0.5 ? mix(white, ink, light / 0.5 + 0.25) : mix(ink, black, (light - 0.5) / 2.4);
    return mix(behind, shade, inside);
}

/* Rows of the letters, a bit for each column, the leftmost highest. */
static const uint8_t LETTERS[][7] = {
    { 31, 16, 16, 30, 16, 16, 16 }, { 14, 4, 4, 4, 4, 4, 14 },      { 30, 17, 17, 17, 17, 17, 30 },
    { 30, 17, 17, 30, 20, 18, 17 }, { 14, 17, 17, 17, 17, 17, 14 }, { 15, 16, 16, 14, 1, 1, 30 },
    { 17, 17, 17, 31, 17, 17, 17 }, { 14, 17, 17, 31, 17, 17, 17 },
};

static int lettered(int x, int y)
{
    int column = x / LETTER % 6, row = y / LETTER, letter = x / LETTER / 6;
    return x >= 0 && y >= 0 && row < 7 && column < 5 && letter < (int)(sizeof LETTERS / sizeof LETTERS[0])
        && LETTERS[letter][row] >> (4 - column) & 1;
}

static struct colour pixel(int x, int y)
{
    const struct colour white = { 255, 255, 255 }, black = { 0, 0, 0 }, dark = { 25, 20, 40 };
    struct colour c = background(x, y);
    c = ball(c, (struct colour){ 190, 40, 50 }, x, y, 60, 112, 34);
    c = ball(c, (struct colour){ 60, 140, 80 }, x, y, 120, 128, 26);
    c = ball(c, (struct colour){ 130, 80, 170 }, x, y, 172, 112, 30);
    if (y >= 212)
        c = mix(black, white, (double)(x / 25) / 15);
    if (lettered(x - 18, y - 18))
        c = white;
    else if (lettered(x - 20, y - 20))
        c = dark;
    return c;
}

static int byte(double value)
{
    return value < 0 ? 0 : value > 255 ? 255 : (int)(value + 0.5);
}

int main(void)
{
    printf("P6\n%d %d\n255\n", WIDTH, HEIGHT);
    for (int y = 0; y < HEIGHT; y++)
        for (int x = 0; x < WIDTH; x++) {
            struct colour c = pixel(x, y);
            putchar(byte(c.red));
            putchar(byte(c.green));
            putchar(byte(c.blue));
        }
    return ferror(stdout) || fflush(stdout) != 0;
}
