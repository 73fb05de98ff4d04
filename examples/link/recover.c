/* The library from C: a message is encoded, two neighbouring sections are lost but for one symbol, and recovery fills them in; with that symbol lost as well
   it has to be fetched first. Then a block with a ring of marked places, which two codewords agree with, and a block with a damaged symbol, which none agrees
   with. Exits with 1 if anything is not as it should be. */
#include <fumizhaki.h>
#include <stdio.h>
#include <string.h>

enum { MOST_PLACES = 32768, MOST_ROWS = 4096 };

static uint8_t message[MOST_PLACES], read_back[MOST_PLACES];
static uint8_t sealed[MOST_PLACES], block[MOST_PLACES], marks[MOST_PLACES / 8], list[MOST_PLACES / 8];
static uint16_t witness[MOST_ROWS];

static int wrong = 0;

static void expect(int holds, const char *what)
{
    if (!holds) {
        printf("WRONG: %s\n", what);
        wrong = 1;
    }
}

static void mark(size_t place)
{
    marks[place / 8] |= (uint8_t)(1u << (place % 8));
}

static void print_list(const char *word, size_t count)
{
    printf("%s %zu", word, count);
    for (size_t i = 0; i < count; i++)
        printf(" %u", (unsigned)witness[i]);
    printf("\n");
}

/* Eight sections of 100 symbols: encode, lose 199 symbols of sections 3 and 4, recover, read the message. */
static void lost_sections(void)
{
    fumizhaki_made made = fumizhaki_straight(8, 100);
    expect(made.answer == 0, "the straight plan is made");
    fumizhaki_plan plan = made.plan;
    size_t n = plan.n, t = plan.t, places = n * t, mark_bytes = (places + 7) / 8;

    size_t parity, pair, neighbour, distance;
    expect(fumizhaki_figures(plan, &parity, &pair, &neighbour, &distance) == 0, "the figures are given");
    printf("plan %zu sections of %zu: check places %zu, pair figure %zu, neighbour figure %zu, distance %zu\n", n, t, parity, pair, neighbour, distance);

    size_t data;
    expect(fumizhaki_message_count(plan, &data) == 0, "the message is counted");
    expect(data + parity == places, "message and check places are all places");
    for (size_t i = 0; i < data; i++)
        message[i] = (uint8_t)(i * i + 7 * i + 3);
    expect(fumizhaki_encode(plan, message, data, sealed, places) == 0, "the message is encoded");
    printf("sealed %zu\n", data);

    /* Sections 3 and 4 are places 3t to 5t - 1; the first of them is kept. What stands at marked places is no matter. */
    memcpy(block, sealed, places);
    memset(marks, 0, mark_bytes);
    for (size_t c = 3 * t + 1; c < 5 * t; c++) {
        block[c] = 0xee;
        mark(c);
    }
    size_t erased, count;
    expect(fumizhaki_erasure_count(plan, marks, mark_bytes, &erased) == 0, "the marks are counted");
    expect(erased == neighbour, "as many symbols are lost as the neighbour figure says");
    uint8_t answer = fumizhaki_recover(plan, block, places, marks, mark_bytes, witness, 2 * t, &count);
    expect(answer == 0 && count == 0, "the block is recovered");
    expect(memcmp(block, sealed, places) == 0, "it is the block that was encoded");
    expect(fumizhaki_message_of(plan, block, places, read_back, data) == 0, "the message is read");
    expect(memcmp(read_back, message, data) == 0, "it is the message that was encoded");
    printf("recovered %zu\n", erased);

    /* With the kept symbol lost as well a ring goes through both sections, and the block stays as it is. */
    block[3 * t] = 0xee;
    mark(3 * t);
    answer = fumizhaki_recover(plan, block, places, marks, mark_bytes, witness, 2 * t, &count);
    expect(answer == 6 && count == 2 * t, "one symbol more makes it loose");
    expect(block[3 * t] == 0xee, "a refusal keeps the block");
    printf("loose %zu\n", count);

    /* What has to be fetched from elsewhere: with these symbols set and their marks taken away the others are recovered. */
    expect(fumizhaki_fetch(plan, marks, mark_bytes, list, mark_bytes, &count) == 0, "the fetch list is given");
    printf("fetch %zu", count);
    for (size_t c = 0; c < places; c++)
        if (list[c / 8] >> (c % 8) & 1) {
            printf(" %zu", c);
            block[c] = sealed[c];
        }
    printf("\n");
    for (size_t i = 0; i < mark_bytes; i++)
        marks[i] &= (uint8_t)~list[i];
    answer = fumizhaki_recover(plan, block, places, marks, mark_bytes, witness, 2 * t, &count);
    expect(answer == 0 && memcmp(block, sealed, places) == 0, "it is recovered with what was fetched");

    expect(fumizhaki_recover(plan, block, places - 1, marks, mark_bytes, witness, 2 * t, &count) == 3, "a block of another length is refused");
    expect(count == 0, "a refused call has count 0");
}

/* Document 01's ring in the ruler of three sections of 7 symbols. */
static void ring(void)
{
    static const size_t lost[6] = {0, 7, 16, 2, 10, 17};
    fumizhaki_made made = fumizhaki_ruler(3);
    expect(made.answer == 0, "the ruler is made");
    fumizhaki_plan plan = made.plan;
    size_t t = plan.t, places = plan.n * t, mark_bytes = (places + 7) / 8, count, data;

    memset(block, 0, places);
    memset(marks, 0, mark_bytes);
    for (size_t i = 0; i < 6; i++)
        mark(lost[i]);
    expect(fumizhaki_recover(plan, block, places, marks, mark_bytes, witness, 2 * t, &count) == 6, "the block is loose");
    print_list("loose", count);

    /* The zero block agrees, and so does this one: the ring's symbols are 1. */
    for (size_t i = 0; i < count; i++)
        block[witness[i]] ^= 1;
    expect(fumizhaki_message_count(plan, &data) == 0, "the message is counted");
    expect(fumizhaki_message_of(plan, block, places, read_back, data) == 0, "a ring of ones is a second codeword");

    /* With one of the six known the others follow. */
    marks[0] &= (uint8_t)~1u;
    block[0] = 5;
    expect(fumizhaki_recover(plan, block, places, marks, mark_bytes, witness, 2 * t, &count) == 0, "the block is recovered");
    expect(block[17] == 5, "the last of the ring is 5");
    printf("symbol 17 %u\n", (unsigned)block[17]);

    /* A damaged symbol and no marks: no codeword agrees. */
    memset(marks, 0, mark_bytes);
    block[0] = 6;
    expect(fumizhaki_recover(plan, block, places, marks, mark_bytes, witness, 2 * t, &count) == 5, "the block is crossed");
    print_list("crossed", count);

    expect(fumizhaki_ruler(2).answer == 10, "there is no ruler of two sections");
}

int main(void)
{
    lost_sections();
    ring();
    printf(wrong ? "something is wrong\n" : "all as expected\n");
    return wrong;
}
