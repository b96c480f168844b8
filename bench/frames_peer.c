/* Reads the request frames of standard input 1,000 times in a row, as frame_bench does, and prints how many there are up to the first
 * byte with which none goes on. A plain reader: each head by its fields, high byte first, then the string behind it.
 */
#include <stdint.h>
#include <stdio.h>
#include <stdlib.h>

struct request {
    uint8_t op, flags, node;
    uint32_t id, count;
    uint16_t strength, len;
};

static uint32_t number(const unsigned char *at, int bytes)
{
    uint32_t n = 0;
    while (bytes-- > 0)
        n = n << 8 | *at++;
    return n;
}

/* Whether the 16 bytes are the head of a request, which is read. */
__attribute__((noinline)) static int read_head(const unsigned char *at, struct request *r)
{
    if (at[0] != 1)
        return 0;
    r->op = at[1];
    r->flags = at[2];
    r->node = at[3];
    r->id = number(at + 4, 4);
    r->count = number(at + 8, 4);
    r->strength = number(at + 12, 2);
    r->len = number(at + 14, 2);
    if (r->op < 1 || r->op > 6)
        return 0;
    if (r->flags > 1 || (r->flags && r->op != 2 && r->op != 3))
        return 0;
    if (r->count && r->op != 2)
        return 0;
    if (r->strength && r->op > 2)
        return 0;
    return r->len <= (r->op < 4 ? 4096 : 0);
}

int main(void)
{
    static unsigned char stream[16777217];
    size_t len = fread(stream, 1, sizeof stream, stdin);
    unsigned long long count = 0;
    if (len > 16777216)
        return 1;
    for (int copy = 0; copy < 1000; copy++) {
        for (size_t at = 0; at < len; count++) {
            struct request r;
            if (len - at < 16 || !read_head(stream + at, &r) || len - at - 16 < r.len) {
                copy = 1000;
                break;
            }
            at += 16 + r.len;
        }
    }
    printf("%llu frames\n", count);
    return 0;
}
