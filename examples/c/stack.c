/*
 * Prints the stack that each call of the library touches, its return address
 * among it: the most over lines that reach every command, every answer and
 * every refusal, with up to fifteen peers waiting, over commands that are
 * written, with the longest numerals and refused, and over dates and moments
 * that are converted. A call runs on a stack of its own that is painted before
 * it, and the lowest byte that has another value afterwards is how far the call
 * went down. For x86-64, as the library is.
 */
#define _XOPEN_SOURCE 700
#include <stdio.h>
#include <string.h>
#include <ucontext.h>

#include "boardtime.h"

#define STACK_BYTES 65536

static uint8_t image[BOARDTIME_IMAGE_BYTES];
static uint8_t out[BOARDTIME_OUTPUT_BYTES];
static size_t out_length = sizeof out;
static const uint8_t *line;
static size_t line_length;
static uint64_t ticks;
static uint64_t board, rule, claim, tag;    /* of a command that is written */
static int64_t lower, upper;
static uint64_t out_time, back_time;        /* of a flight that is written */
static struct boardtime_date from, until;   /* of a window that is written */
static struct boardtime_date date;          /* of a conversion */
static int64_t moment;
static volatile uint32_t returned;

static uint8_t stack[STACK_BYTES];
const uint8_t *top;
static ucontext_t here, there;

/* A call by the name noted_...: it stores where the return address ends, and
   goes on as the call itself. An argument on the stack, as the last one of a
   start is, lies above that and is the caller's. `top` is not static, so that
   it has its name in assembly too. */
#define NOTED(call)                                             \
    extern __typeof__(call) noted_##call;                       \
    __asm__(".pushsection .text\n"                              \
            "noted_" #call ": lea 8(%rsp), %rax\n"              \
            "mov %rax, top(%rip)\n"                             \
            "jmp " #call "\n"                                   \
            ".popsection")

NOTED(boardtime_fresh);
NOTED(boardtime_pass);
NOTED(boardtime_line);
NOTED(boardtime_write_start);
NOTED(boardtime_write_pass);
NOTED(boardtime_write_request);
NOTED(boardtime_write_reply);
NOTED(boardtime_write_drop);
NOTED(boardtime_write_read);
NOTED(boardtime_write_waiting);
NOTED(boardtime_write_window);
NOTED(boardtime_write_flight);
NOTED(boardtime_plain);
NOTED(boardtime_moment_of);
NOTED(boardtime_date_of);

static void call_fresh(void)
{
    returned = noted_boardtime_fresh(image, sizeof image);
}

static void call_pass(void)
{
    returned = noted_boardtime_pass(image, sizeof image, ticks);
}

static void call_line(void)
{
    returned = noted_boardtime_line(image, sizeof image, line, line_length, out,
                                    sizeof out);
}

static void call_write_start(void)
{
    returned = noted_boardtime_write_start(out, out_length, board, rule, claim,
                                           lower, upper);
}

static void call_write_pass(void)
{
    returned = noted_boardtime_write_pass(out, out_length, ticks);
}

static void call_write_request(void)
{
    returned = noted_boardtime_write_request(out, out_length, board);
}

static void call_write_reply(void)
{
    returned = noted_boardtime_write_reply(out, out_length, board, tag, lower,
                                           upper);
}

static void call_write_drop(void)
{
    returned = noted_boardtime_write_drop(out, out_length, board);
}

static void call_write_read(void)
{
    returned = noted_boardtime_write_read(out, out_length);
}

static void call_write_waiting(void)
{
    returned = noted_boardtime_write_waiting(out, out_length);
}

static void call_write_window(void)
{
    returned = noted_boardtime_write_window(out, out_length, board, &from,
                                            &until);
}

static void call_write_flight(void)
{
    returned = noted_boardtime_write_flight(out, out_length, board, out_time,
                                            back_time);
}

static void call_plain(void)
{
    returned = noted_boardtime_plain(line, line_length, out, out_length);
}

static void call_moment_of(void)
{
    returned = noted_boardtime_moment_of(&date, &moment);
}

static void call_date_of(void)
{
    returned = noted_boardtime_date_of(moment, &date);
}

/* How far down a call goes on a stack that is painted in this colour. */
static size_t painted(void (*call)(void), uint8_t colour)
{
    const uint8_t *lowest = stack;

    memset(stack, colour, sizeof stack);
    getcontext(&there);
    there.uc_stack.ss_sp = stack;
    there.uc_stack.ss_size = sizeof stack;
    there.uc_link = &here;
    makecontext(&there, call, 0);
    swapcontext(&here, &there);
    while (*lowest == colour)
        lowest++;
    return (size_t)(top - lowest);
}

/* With two colours, since a call may happen to store one of them. Both times
   it begins with the same image. */
static void measure(void (*call)(void), size_t *most)
{
    uint8_t before[sizeof image];
    size_t first, second;

    memcpy(before, image, sizeof image);
    first = painted(call, 0xA5);
    memcpy(image, before, sizeof image);
    second = painted(call, 0x5A);
    if (*most < first)
        *most = first;
    if (*most < second)
        *most = second;
}

static size_t fresh_most, pass_most, line_most, plain_most;
static size_t moment_of_most, date_of_most;
static unsigned seen;   /* a bit for each number that a line was answered with */

/* The numbers that a command without numbers, one with numbers and one with
   dates can be given. */
#define BARE (1u << BOARDTIME_ACCEPTED | 1u << BOARDTIME_SHORT_OUTPUT)
#define NUMBERED (BARE | 1u << BOARDTIME_OUTSIDE_RANGE)
#define DATED (NUMBERED | 1u << BOARDTIME_NO_DATE | 1u << BOARDTIME_NO_WINDOW)

/* The calls that write a command. */
static struct {
    const char *name;
    void (*call)(void);
    unsigned numbers;   /* a bit for each that it can return */
    unsigned seen;      /* and for each that it did */
    size_t most;
} writers[] = {
    {"boardtime_write_start", call_write_start, NUMBERED, 0, 0},
    {"boardtime_write_pass", call_write_pass, NUMBERED, 0, 0},
    {"boardtime_write_request", call_write_request, NUMBERED, 0, 0},
    {"boardtime_write_reply", call_write_reply, NUMBERED, 0, 0},
    {"boardtime_write_drop", call_write_drop, NUMBERED, 0, 0},
    {"boardtime_write_read", call_write_read, BARE, 0, 0},
    {"boardtime_write_waiting", call_write_waiting, BARE, 0, 0},
    {"boardtime_write_window", call_write_window, DATED, 0, 0},
    {"boardtime_write_flight", call_write_flight, NUMBERED, 0, 0},
};
#define WRITERS (sizeof writers / sizeof writers[0])

static void begin(void)
{
    measure(call_fresh, &fresh_most);
}

static void pass(uint64_t count)
{
    ticks = count;
    measure(call_pass, &pass_most);
}

static void answer(const char *text)
{
    line = (const uint8_t *)text;
    line_length = strlen(text);
    measure(call_plain, &plain_most);
    measure(call_line, &line_most);
    seen |= 1u << BOARDTIME_NUMBER(returned);
}

/* Every command with the numbers as they are set. */
static void write_all(void)
{
    for (size_t i = 0; i < WRITERS; i++) {
        measure(writers[i].call, &writers[i].most);
        writers[i].seen |= 1u << BOARDTIME_NUMBER(returned);
    }
}

/* Every command, accepted and refused, under one rule. */
static void commands(const char *start)
{
    static const char *const lines[] = {
        "", "(pass 12x7)", "(pass 86400001)", "(pass 10)", "(request 3)",
        "(request 4)", "(request 4)", "(reply 4 2 (0 0))", "(pass 5)",
        "(reply 4 1 (9999000 10001000))", "(drop 4)",
        "(request 4)", "(reply 4 2 (0 4000000000000000000))",
        "(request 4)", "(reply 4 3 (-4000000000000000000 -1))",
        "(request 4)", "(reply 4 4 (14_997_000 15_001_000))",
        "(request 4)", "(drop 4)", "(read)", "(waiting)",
        "(pass 1000_000)", "(pass 86_400_001)",
        "(reply 4 16_777_215 (-4_000_000_000_000_000_000 4_000_000_000_000_000_000))",
        "(window 0 (1900-02-29T00:00:00 2000-01-01T00:00:00))",
        "(window 0 (2000-01-01T00:00:00 2000-01-01T00:00:00))",
        "(window 15 (1900-01-01T00:00:00 2099-12-31T23:59:59))",
        "(window 15 (2000-01-01T00:00:01 2000-02-29T00:00:00))",
        "(window 15 (1999-12-31T23:59:59 2000-01-01T00:00:00))",
        "(flight 4 (0 -1))", "(flight 4 (1_000_000_001 0))", "(flight 3 (0 0))",
        "(flight 4 (1_000_000_000 1000000000))", "(request 4)",
        "(flight 4 (0 0))", "(reply 4 6 (14_997_000 15_001_000))",
        "(flight 9 (1000 2000))", "(request 9)",
        "(reply 9 7 (14997000 15001000))",
    };

    begin();
    answer("(read)");
    answer(start);
    answer(start);
    for (size_t i = 0; i < sizeof lines / sizeof lines[0]; i++)
        answer(lines[i]);
}

/* After them, every command with fifteen peers waiting, then a late reply. */
static void commands_waiting(void)
{
    char text[64];

    for (unsigned peer = 0; peer < 16; peer++) {
        snprintf(text, sizeof text, "(request %u)", peer);
        answer(text);
    }
    answer("(read)");
    answer("(waiting)");
    answer("(pass 1)");
    pass(1);
    pass(86400001);
    answer("(flight 14 (0 0))");
    answer("(reply 0 8 (15000000 18000000))");
    answer("(drop 15)");
    answer("(flight 15 (1_000_000_000 1_000_000_000))");
    answer("(pass 3600001)");
    answer("(reply 1 9 (0 0))");
}

/* What lies at the ends of the ranges: an edge that a pass or an adoption would
   take out of them, and the tags all spent. */
static void ends(void)
{
    begin();
    pass(1);
    answer("(start 3 im 0 (3999999999999000000 4000000000000000000))");
    answer("(pass 1)");
    pass(1);
    memset(image + 32, 0xFF, 3);    /* requests sent: 16777215 */
    answer("(request 4)");
    begin();
    answer("(start 3 mm 0 (-4000000000000000000 -3999999999000000000))");
    answer("(request 4)");
    answer("(pass 1)");
    answer("(reply 4 1 (-4000000000000000000 -3999999999999999999))");
}

/* Commands with the longest and the shortest numerals, then with one number
   after the other outside its range, and without room for a line. */
static void written(void)
{
    static const struct boardtime_date first = {1900, 1, 1, 0, 0, 0};
    static const struct boardtime_date last = {2099, 12, 31, 23, 59, 59};

    board = 15, rule = BOARDTIME_MM, claim = 50000, tag = 16777215;
    ticks = 86400000;
    lower = INT64_C(-4000000000000000000), upper = INT64_C(-3999999999999999999);
    from = first, until = last;
    out_time = back_time = 1000000000;
    write_all();
    from = last;
    write_all();
    until.second = 60;
    write_all();
    upper = lower - 1, out_time = 1000000001;
    write_all();
    lower = upper = 0;
    claim = tag = UINT64_MAX, ticks = 86400001;
    out_time = 0, back_time = UINT64_MAX;
    write_all();
    board = 16;
    write_all();
    board = 0, rule = BOARDTIME_IM, claim = 0, tag = 1, ticks = 0;
    back_time = 0;
    write_all();
    out_length = 0;
    write_all();
    measure(call_plain, &plain_most);
    out_length = sizeof out;
}

/* A moment's date and then that date's moment. A moment that has none leaves six
   zeros, which are no date. */
static void converted(int64_t of, unsigned *numbers)
{
    moment = of;
    measure(call_date_of, &date_of_most);
    *numbers |= 1u << returned;
    measure(call_moment_of, &moment_of_most);
    *numbers |= 1u << returned;
}

/* Moments of every month from before the first year to after the last one. */
static unsigned conversions(void)
{
    const int64_t month = INT64_C(2629746000000000);
    unsigned numbers = 0;

    for (int64_t of = -1201 * month; of <= 1201 * month; of += month)
        converted(of, &numbers);
    return numbers;
}

int main(void)
{
    commands("(start 3 im 200 (-1000 1000))");
    commands_waiting();
    commands("(start 3 mm 200 (-1000 1000))");
    commands_waiting();
    ends();
    if (seen != 0x1BFF) {
        printf("not every number from 0 to 12, but 10, was seen: %x\n", seen);
        return 1;
    }
    written();
    if (conversions() != (1u << BOARDTIME_ACCEPTED | 1u << BOARDTIME_NO_DATE)) {
        printf("not every number of a conversion was seen\n");
        return 1;
    }
    for (size_t i = 0; i < WRITERS; i++)
        if (writers[i].seen != writers[i].numbers) {
            printf("not every number of %s was seen: %x\n", writers[i].name,
                   writers[i].seen);
            return 1;
        }
    printf("boardtime_fresh %zu\nboardtime_pass %zu\nboardtime_line %zu\n",
           fresh_most, pass_most, line_most);
    for (size_t i = 0; i < WRITERS; i++)
        printf("%s %zu\n", writers[i].name, writers[i].most);
    printf("boardtime_plain %zu\n", plain_most);
    printf("boardtime_moment_of %zu\nboardtime_date_of %zu\n", moment_of_most,
           date_of_most);
    return 0;
}
