/* The library as C calls it: what bindings/rust/tests tries, in short. `test BLOCK` also writes the whole case's block to a file. */
#define _POSIX_C_SOURCE 200809L
#include <pthread.h>
#include <stdio.h>
#include <string.h>

#include "focuspoints.h"

#define MARK 0xABCD1234u
#define BYTES(s) (const uint8_t *)(s), sizeof(s) - 1
#define PHOTOGRAPH(block, len, out, places) \
    focuspoints_photograph(block, len, 0, 0, 0, 0, 0, 0, BYTES("NIKON D600"), out, places)

static int failed;

static void expect(int holds, int line)
{
    if (!holds) {
        printf("test.c:%d does not hold\n", line);
        failed = 1;
    }
}
#define EXPECT(holds) expect(holds, __LINE__)

/* The whole case's block: points 1 and 16 of the D600. */
static const uint8_t note[52] = "MM\0*\0\0\0\x08\0\x01\0\xB7\0\x07\0\0\0\x1E\0\0\0\x16"
                                "0100\0\0\x03\x01\x01\x80";

/* The same record behind a FocusMode. */
static const uint8_t manual[70] = "MM\0*\0\0\0\x08\0\x02\0\x07\0\x02\0\0\0\x06\0\0\0\x22\0\xB7\0\x07\0\0\0\x1E\0\0\0\x28"
                                  "MANUAL"
                                  "0100\0\0\x03\x01\x01\x80";

/* The whole case's block with zeros behind it, one byte longer than a block may be. */
static uint8_t longest[1048577];

/* A directory of no entries. */
static const uint8_t none[10] = "MM\0*\0\0\0\x08\0\0";

#define LOAD \
    "0100000000000000000000000000000000000A4E494B4F4E20443630304D4D002A00000008000100B700070000001E0000001630313030" \
    "000003010180000000000000000000000000000000000000000077\n"
#define TURN "0906F1\n" /* orientation 6 */
#define LIST "06FA\n"

static const char whole_case[] = LOAD TURN "020000076C00000B5400000190000001900A\n" LIST;

static const char answers[] =
    "ok\n"
    "ok\n"
    "ok\n"
    "frame 400 400 points 1 primary 0 mode 1 origin 2\n"
    "1 109 108 164 164 0\n";

/* Orientations outside 1 to 8, of which the first is 7 before it is 15; then malformed lines: the codes that turn and mirror had, no
 * number, two numbers. */
static const char refused[] = "0900F7\n" LOAD "0900F7\n" "0909EE\n" "09FFF8\n" "03FD\n" "04FC\n" "09F7\n" "090606EB\n";
static const char refusals[] = "no 7\nok\nno 15\nno 15\nno 15\nno 14\nno 14\nno 14\nno 14\n";

/* Fits in 6016 by 4016: a box may be off by 6016, and one of 376 by 252 is, but not one of 376 by 253. In 4016 by 6016 it is to be on
 * its side. */
#define FIT_376_252 "0700000178000000FC84\n"
#define FIT_376_253 "0700000178000000FD83\n"
#define FIT_252_376 "07000000FC0000017884\n"
static const char fits[] = FIT_376_252 LOAD FIT_376_252 FIT_376_253 TURN FIT_376_252 FIT_252_376;
static const char fitted[] =
    "no 7\nok\n"
    "frame 376 252 points 2 primary 0 mode 1 origin 2\n1 188 126 10 10 0\n16 218 126 10 10 0\n"
    "no 19\nok\nno 19\n"
    "frame 252 376 points 2 primary 0 mode 1 origin 2\n1 126 188 10 10 0\n16 126 218 10 10 0\n";

/* Boxes with a blank side in 6016 by 4016: 4016 * 376 / 6016 = 251 and 6016 * 253 / 4016 = 378.996, nearest 379; a height of 4294967295
 * works out as a width that is too long and is cut to 4294967295, and that box is a square; without sides it is 12. In 4016 by 6016:
 * 6016 * 376 / 4016 = 563.25, nearest 563. Behind a cut to 6016 by 164 a width of 18 works out as 0, nearest to 164 * 18 / 6016 = 0.49,
 * and one of 19 as 1; nothing is left of the areas there. */
#define FIT_376_0 "07000001780000000080\n"
#define FIT_0_253 "0700000000000000FDFC\n"
#define FIT_0_LONGEST "0700000000FFFFFFFFFD\n"
#define FIT_0_0 "070000000000000000F9\n"
#define FIT_18_0 "070000001200000000E7\n"
#define FIT_19_0 "070000001300000000E6\n"
#define BACK "05FB\n"
#define FLAT_CUT "02000000000000078500001780000000A437\n"
static const char blanks[] = FIT_376_0 LOAD FIT_376_0 FIT_0_253 FIT_0_LONGEST FIT_0_0 TURN FIT_376_0 BACK FLAT_CUT FIT_18_0 FIT_19_0;
static const char worked[] =
    "no 7\nok\n"
    "frame 376 251 points 2 primary 0 mode 1 origin 2\n1 188 125 10 10 0\n16 218 125 10 10 0\n"
    "frame 379 253 points 2 primary 0 mode 1 origin 2\n1 190 126 10 10 0\n16 220 126 10 10 0\n"
    "no 19\nno 12\nok\n"
    "frame 376 563 points 2 primary 0 mode 1 origin 2\n1 188 282 15 15 0\n16 188 326 15 15 0\n"
    "ok\nok\nno 12\n"
    "frame 19 1 points 2 primary 0 mode 1 origin 2\n1 10 1 0 0 0\n16 11 1 0 0 0\n";

static uint32_t out[1000];

static void mark(void)
{
    for (size_t i = 0; i < 1000; i++)
        out[i] = MARK;
}

/* Whether the buffer is as `mark` left it, from a place on. */
static int kept(size_t from)
{
    for (size_t i = from; i < 1000; i++)
        if (out[i] != MARK)
            return 0;
    return 1;
}

static void photograph(void)
{
    static const uint32_t listing[18] = {6016, 4016, 2, 0, 1, 2, 1, 3008, 2007, 164, 164, 0, 16, 3486, 2007, 164, 164, 0};
    uint8_t block[52];

    for (size_t places = 0; places < 18; places++) {
        mark();
        EXPECT(PHOTOGRAPH(note, sizeof note, out, places) == FOCUSPOINTS_SHORT && kept(0));
    }
    mark();
    EXPECT(PHOTOGRAPH(note, sizeof note, out, 18) == FOCUSPOINTS_OK && kept(18));
    EXPECT(memcmp(out, listing, sizeof listing) == 0);
    mark();
    EXPECT(PHOTOGRAPH(note, sizeof note, out, 1000) == FOCUSPOINTS_OK && kept(18));
    EXPECT(memcmp(out, listing, sizeof listing) == 0);

    /* Refusals come before the buffer's length. */
    mark();
    EXPECT(PHOTOGRAPH(note, 7, out, 1000) == FOCUSPOINTS_UNREADABLE && kept(0));
    EXPECT(PHOTOGRAPH(none, sizeof none, out, 0) == FOCUSPOINTS_NO_RECORD && kept(0));
    memcpy(longest, note, sizeof note);
    EXPECT(PHOTOGRAPH(longest, sizeof longest, out, 1000) == FOCUSPOINTS_UNREADABLE && kept(0));
    EXPECT(PHOTOGRAPH(longest, sizeof longest - 1, out, 1000) == FOCUSPOINTS_OK && kept(18));
    EXPECT(memcmp(out, listing, sizeof listing) == 0);
    mark();
    memcpy(block, note, sizeof note);
    block[22] = '9'; /* a version that is not known */
    EXPECT(PHOTOGRAPH(block, sizeof block, out, 1000) == FOCUSPOINTS_BAD_RECORD && kept(0));
    memcpy(block, note, sizeof note);
    memcpy(block + 38, "\x17\x80\x0F\xB0\0\x64\x07\xD0\0\xC9\0\xC8", 12); /* in 6016 by 4016, at (100, 2000), 201 by 200 */
    EXPECT(PHOTOGRAPH(block, sizeof block, out, 1000) == FOCUSPOINTS_POSITION_UNPLACED && kept(0));
    block[47] = 0xC8; /* 200 wide: its left edge is that of the frame */
    EXPECT(PHOTOGRAPH(block, sizeof block, out, 12) == FOCUSPOINTS_OK && out[5] == 1 && out[7] == 100 && kept(12));
    mark();
    EXPECT(PHOTOGRAPH(manual, sizeof manual, out, 1000) == FOCUSPOINTS_MANUAL_FOCUS && kept(0));
    memcpy(block, note, sizeof note);
    block[29] = 0; /* primary 0 */
    EXPECT(PHOTOGRAPH(block, sizeof block, out, 1000) == FOCUSPOINTS_NAMES_UNPLACED && kept(0));
    EXPECT(focuspoints_photograph(note, sizeof note, 0, 0, 0, 0, 0, 0, BYTES("NIKON D60"), out, 1000) == FOCUSPOINTS_NAMES_UNPLACED);
    EXPECT(focuspoints_photograph(note, sizeof note, 0, 0, 0, 0, 0, 0, BYTES(""), out, 1000) == FOCUSPOINTS_NAMES_UNPLACED && kept(0));

    /* A size whose given number is 0 is not looked at; any other number gives it. */
    for (uint32_t given = 0; given < 4; given++) {
        EXPECT(focuspoints_photograph(note, sizeof note, given, 7, 7, given == 3 ? UINT32_MAX : given, 4512, 3008,
                                      BYTES("NIKON D600"), out, 240) == FOCUSPOINTS_OK);
        EXPECT(out[7] == (given ? 3005 : 3008) && out[8] == (given ? 2002 : 2007));
    }
    EXPECT(focuspoints_photograph(note, sizeof note, 1, 4512, 3008, 0, 4512, 3008, BYTES("NIKON D600"), out, 240) == FOCUSPOINTS_OK);
    EXPECT(out[7] == 3008);
}

static void script(void)
{
    uint8_t text[sizeof answers + 9], more[sizeof fitted], most[sizeof worked];
    const size_t len = sizeof answers - 1;

    memset(text, 0xAB, sizeof text);
    EXPECT(focuspoints_script(BYTES(whole_case), text, len - 1) == FOCUSPOINTS_NO_ROOM);
    for (size_t i = 0; i < sizeof text; i++)
        EXPECT(text[i] == 0xAB);
    EXPECT(focuspoints_script(BYTES(whole_case), text, len) == len);
    EXPECT(memcmp(text, answers, len) == 0);
    for (size_t i = len; i < sizeof text; i++)
        EXPECT(text[i] == 0xAB);
    /* The last feed may be missing. */
    EXPECT(focuspoints_script((const uint8_t *)whole_case, sizeof whole_case - 2, text, sizeof text) == len);
    EXPECT(focuspoints_script(BYTES(""), text, 0) == 0);
    EXPECT(focuspoints_script(BYTES("\n"), text, sizeof text) == 6 && memcmp(text, "no 14\n", 6) == 0);
    EXPECT(focuspoints_script(BYTES(refused), text, sizeof text) == sizeof refusals - 1);
    EXPECT(memcmp(text, refusals, sizeof refusals - 1) == 0);
    EXPECT(focuspoints_script(BYTES(fits), more, sizeof more) == sizeof fitted - 1);
    EXPECT(memcmp(more, fitted, sizeof fitted - 1) == 0);
    EXPECT(focuspoints_script(BYTES(blanks), most, sizeof most) == sizeof worked - 1);
    EXPECT(memcmp(most, worked, sizeof worked - 1) == 0);
}

static void contents(void)
{
    for (size_t places = 0; places < 5; places++) {
        mark();
        EXPECT(focuspoints_contents(note, sizeof note, out, places) == FOCUSPOINTS_SHORT && kept(0));
        EXPECT(focuspoints_contents(note, 7, out, places) == FOCUSPOINTS_UNREADABLE && kept(0));
    }
    EXPECT(focuspoints_contents(BYTES(""), out, 1000) == FOCUSPOINTS_UNREADABLE && kept(0));
    EXPECT(focuspoints_contents(note, sizeof note, out, 1000) == FOCUSPOINTS_OK && kept(5));
    EXPECT(out[0] == 1 && out[1] == 0xB7 && out[2] == 0 && out[3] == 0 && out[4] == 0);
    mark();
    EXPECT(focuspoints_contents(none, sizeof none, out, 5) == FOCUSPOINTS_OK && kept(5));
    EXPECT(out[0] == 0 && out[1] == 0 && out[2] == 0 && out[3] == 0 && out[4] == 0);
}

/* An entry of a directory. */
struct entry {
    uint16_t tag, type;
    uint32_t count, field;
};
#define INTACT(tag) {tag, 7, 4, 0x61626364}
#define OF_TYPE(tag, type) {tag, type, 1, 0x61626364}
#define DAMAGED(tag) {tag, 7, 5, UINT32_MAX} /* five bytes, at the last offset that there is */
#define PASSED_OVER(tag) OF_TYPE(tag, 14)
#define MOST_ENTRIES 8

static uint8_t *put(uint8_t *at, uint32_t number, int bytes, int little)
{
    for (int i = 0; i < bytes; i++)
        at[little ? i : bytes - 1 - i] = (uint8_t)(number >> 8 * i);
    return at + bytes;
}

/* Writes a block of these entries and gives its length. */
static size_t directory(uint8_t *block, const struct entry *entries, size_t count, int little)
{
    uint8_t *at = block;

    memcpy(at, little ? "II*\0" : "MM\0*", 4);
    at = put(at + 4, 8, 4, little);
    at = put(at, (uint32_t)count, 2, little);
    for (size_t i = 0; i < count; i++) {
        at = put(at, entries[i].tag, 2, little);
        at = put(at, entries[i].type, 2, little);
        at = put(at, entries[i].count, 4, little);
        at = put(at, entries[i].field, 4, little);
    }
    return (size_t)(at - block);
}

/* The five numbers for a block of these entries, in both byte orders; what lies behind them is kept, also where it is lent. */
static void expect_contents(const struct entry *entries, size_t count, const uint32_t *numbers, const char *wrong)
{
    static const size_t places[3] = {5, 6, 1000};
    uint8_t block[10 + 12 * MOST_ENTRIES];

    for (int i = 0; i < 6; i++) {
        size_t len = directory(block, entries, count, i % 2);
        mark();
        int holds = focuspoints_contents(block, len, out, places[i / 2]) == FOCUSPOINTS_OK && kept(5) &&
                    memcmp(out, numbers, 5 * sizeof *out) == 0;
        if (!holds)
            printf("contents: %u %u %u %u %u, as with %s\n", out[0], out[1], out[2], out[3], out[4], wrong);
        EXPECT(holds);
    }
}

/* Directories in any order: a tag comes where its first kept entry stands. With each, what a wrong program has. */
static const struct {
    const char *wrong;
    struct entry entries[MOST_ENTRIES];
    size_t count;
    uint32_t numbers[5];
} directories[] = {
    {"a tag placed by its last entry", {INTACT(0x07), INTACT(0x45), INTACT(0x07)}, 3, {2, 0x07, 0x45}},
    {"a tag listed twice", {INTACT(0xB7), INTACT(0xB7), INTACT(0x1B), INTACT(0xB7)}, 4, {2, 0xB7, 0x1B}},
    {"a fifth tag written", {INTACT(0x1B), INTACT(0x1B), INTACT(0x1B), INTACT(0x1B), INTACT(0x1B), INTACT(0x07)}, 6, {2, 0x1B, 0x07}},
    {"an end after four entries",
     {INTACT(0x45), INTACT(0xB7), INTACT(0x45), INTACT(0x07), INTACT(0xB7), INTACT(0x1B), INTACT(0x07), INTACT(0x45)}, 8,
     {4, 0x45, 0xB7, 0x07, 0x1B}},
    {"a damaged entry not kept", {DAMAGED(0xB7), INTACT(0x1B), DAMAGED(0x07)}, 3, {3, 0xB7, 0x1B, 0x07}},
    {"a damaged entry without a place", {DAMAGED(0x45), INTACT(0x07), INTACT(0x45)}, 3, {2, 0x45, 0x07}},
    {"a tag moved by a damaged entry", {INTACT(0x07), INTACT(0x45), DAMAGED(0x07)}, 3, {2, 0x07, 0x45}},
    {"a passed-over type that counts", {PASSED_OVER(0xB7), INTACT(0x07), OF_TYPE(0x45, 0)}, 3, {1, 0x07}},
    {"a passed-over type that sets a place", {PASSED_OVER(0x45), INTACT(0x1B), INTACT(0x45)}, 3, {2, 0x1B, 0x45}},
    {"a tag taken away by a passed-over type", {INTACT(0x07), INTACT(0x45), PASSED_OVER(0x07)}, 3, {2, 0x07, 0x45}},
    {"an end at a passed-over type", {INTACT(0xB7), PASSED_OVER(0x1B), INTACT(0x45)}, 3, {2, 0xB7, 0x45}},
    {"the last byte of a type for the type", {OF_TYPE(0xB7, 0x0107), INTACT(0x45), OF_TYPE(0x07, 0x0700)}, 3, {1, 0x45}},
    {"types 1 and 13 passed over", {OF_TYPE(0x45, 13), OF_TYPE(0x07, 1)}, 2, {2, 0x45, 0x07}},
    {"a tag placed by its first entry of the right type", {OF_TYPE(0x45, 2), INTACT(0x07), OF_TYPE(0x45, 4)}, 3, {2, 0x45, 0x07}},
    {"tag 0 listed", {INTACT(0), INTACT(0xB7), INTACT(0), INTACT(0x07)}, 4, {2, 0xB7, 0x07}},
    {"tag 0 that takes places", {INTACT(0), INTACT(0), INTACT(0), INTACT(0), INTACT(0x1B), INTACT(0xB7), INTACT(0x45), INTACT(0x07)}, 8,
     {4, 0x1B, 0xB7, 0x45, 0x07}},
    {"another tag taken for one of the four", {INTACT(0x0700), INTACT(0x01B7), INTACT(0x45), INTACT(0xB700), INTACT(0x1B)}, 5,
     {2, 0x45, 0x1B}},
    {"none of the four, and a place not 0", {INTACT(0), DAMAGED(0x08), PASSED_OVER(0xB7)}, 3, {0}},
};

/* As many entries as a directory can have, the four tags at its end. */
static void contents_of_the_longest(void)
{
    static const struct entry four[4] = {INTACT(0xB7), DAMAGED(0x45), INTACT(0x1B), INTACT(0x07)};
    static struct entry entries[65535];
    static uint8_t block[10 + 12 * 65535];
    static const uint32_t numbers[5] = {4, 0xB7, 0x45, 0x1B, 0x07};

    for (size_t i = 0; i < 65535; i++)
        entries[i] = (struct entry)INTACT((uint16_t)(0x100 + i % 0x8000));
    memcpy(entries + 65531, four, sizeof four);
    for (int little = 0; little < 2; little++) {
        size_t len = directory(block, entries, 65535, little);
        mark();
        EXPECT(focuspoints_contents(block, len, out, 1000) == FOCUSPOINTS_OK && kept(5) && memcmp(out, numbers, sizeof numbers) == 0);
        mark();
        EXPECT(focuspoints_contents(block, len - 1, out, 1000) == FOCUSPOINTS_UNREADABLE && kept(0));
    }
}

static void contents_in_order(void)
{
    static const uint32_t tags[4] = {0x07, 0x1B, 0x45, 0xB7};

    for (size_t i = 0; i < sizeof directories / sizeof *directories; i++)
        expect_contents(directories[i].entries, directories[i].count, directories[i].numbers, directories[i].wrong);
    /* The four tags in each of their 24 orders; in i the digits of base 4 are the places. */
    for (unsigned i = 0; i < 256; i++) {
        const unsigned at[4] = {i >> 6 & 3, i >> 4 & 3, i >> 2 & 3, i & 3};
        if ((1u << at[0] | 1u << at[1] | 1u << at[2] | 1u << at[3]) != 15)
            continue;
        const struct entry entries[4] = {INTACT((uint16_t)tags[at[0]]), INTACT((uint16_t)tags[at[1]]), INTACT((uint16_t)tags[at[2]]),
                                         INTACT((uint16_t)tags[at[3]])};
        const uint32_t numbers[5] = {4, tags[at[0]], tags[at[1]], tags[at[2]], tags[at[3]]};
        expect_contents(entries, 4, numbers, "an order other than the directory's");
    }
}

/* Calls in a thread with a small stack. The deepest that is known is a list after 64 edits, which with the thread's own need takes half
 * of it. The sanitizers need more. */
#ifndef __SANITIZE_ADDRESS__
#define STACK (64 * 1024)
#define TURNS_4 TURN TURN TURN TURN
#define TURNS_16 TURNS_4 TURNS_4 TURNS_4 TURNS_4

static const char turned[] = LOAD TURNS_16 TURNS_16 TURNS_16 TURNS_16 LIST;
static const char listed[] = "ok\nframe 6016 4016 points 2 primary 0 mode 1 origin 2\n1 3008 2007 164 164 0\n16 3486 2007 164 164 0\n";

static void *calls(void *unused)
{
    static uint8_t text[1000];
    const size_t len = sizeof listed - 1;

    EXPECT(PHOTOGRAPH(note, sizeof note, out, 240) == FOCUSPOINTS_OK);
    EXPECT(focuspoints_contents(note, sizeof note, out, 5) == FOCUSPOINTS_OK);
    EXPECT(focuspoints_script(BYTES(whole_case), text, sizeof text) == sizeof answers - 1);
    EXPECT(focuspoints_script(BYTES(turned), text, sizeof text) == 3 * 64 + len && memcmp(text + 3 * 64, listed, len) == 0);
    return unused;
}

static void small_stack(void)
{
    pthread_attr_t small;
    pthread_t thread;

    EXPECT(pthread_attr_init(&small) == 0 && pthread_attr_setstacksize(&small, STACK) == 0);
    EXPECT(pthread_create(&thread, &small, calls, NULL) == 0 && pthread_join(thread, NULL) == 0);
    printf("C: run in a thread with a stack of %d bytes\n", STACK);
}
#else
static void small_stack(void)
{
}
#endif

int main(int argc, char **argv)
{
    photograph();
    script();
    contents();
    contents_in_order();
    contents_of_the_longest();
    small_stack();
    if (argc == 2) {
        FILE *f = fopen(argv[1], "wb");
        EXPECT(f && fwrite(note, 1, sizeof note, f) == sizeof note && fclose(f) == 0);
    }
    printf("C: %s\n", failed ? "failed" : "passed");
    return failed;
}
