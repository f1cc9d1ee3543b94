/* Does what is typed, a line at a time. */
#include <stdbool.h>
#include "user.h"

enum { LINE_SIZE = 100 };

static char line[LINE_SIZE];

/* What stands behind a word and a blank; 0 where the text does not begin with the word. */
static const char *behind(const char *text, const char *word)
{
    while (*word)
        if (*text++ != *word++)
            return 0;
    return *text == ' ' ? text + 1 : *text ? 0 : text;
}

static void list(const char *rest)
{
    char name[NAME_SIZE];
    for (uint32_t i = 0; call(CALL_FILE_NAME, i, name, sizeof name) != FAILED; i++)
        print("%s\n", name);
}

/* The length of the whole lines that a text begins with; all of it where no line ends in it. */
static uint32_t whole_lines(const char *text, uint32_t length)
{
    for (uint32_t i = length; i > 0; i--)
        if (text[i - 1] == '\n')
            return i;
    return length;
}

/* Prints a file, some lines at a time. */
static void cat(const char *name)
{
    char text[WRITE_MOST];
    struct file_part part = {.buffer = text, .size = sizeof text};
    for (unsigned i = 0; i + 1 < NAME_SIZE && name[i]; i++)
        part.name[i] = name[i];
    uint32_t length;
    while ((length = call(CALL_FILE_READ, &part)) != 0) {
        if (length == FAILED) {
            print("there is no file %s\n", name);
            return;
        }
        length = whole_lines(text, length);
        call(CALL_WRITE, text, length);
        part.offset += length;
    }
}

static void echo(const char *text)
{
    print("%s\n", text);
}

static void status(const char *rest)
{
    struct counts counts;
    call(CALL_COUNTS, &counts);
    print("%u ticks, %u of them idle; %u switches, %u of them preemptions; %u calls\n",
          counts.ticks, counts.idle_ticks, counts.switches, counts.preemptions, counts.calls);
    print("%u access errors, %u of them returned from; %u writes completed, %u MOVEMs continued\n",
          counts.access_errors, counts.returns, counts.writes_completed, counts.moves_continued);
    print("%u pages given, %u copied, %u unshared; %u frames of memory are free\n",
          counts.pages_given, counts.pages_copied, counts.pages_unshared, counts.frames_free);
}

/* What a process may not do. It ends it, so there is no return. */
static void do_wrong(unsigned way)
{
    volatile uint32_t zero = 0;
    uint32_t *const kernel = (uint32_t *)0x1000;
    switch (way) {
    case 0: *(volatile uint32_t *)kernel = 0; break;
    case 1: call(CALL_WRITE, kernel, 10); break;
    case 2: asm volatile("stop #0x2700"); break;
    case 3: zero = way / zero; break;
    }
}

static void fault(const char *rest)
{
    for (unsigned way = 0; way < 4; way++)
        if (call(CALL_FORK) == 0)
            do_wrong(way);
}

/* A further process whose stack grows, a page at a time. */
static void deep(const char *rest)
{
    if (call(CALL_FORK) != 0)
        return;
    print("deep: the numbers up to 500 make %u\n", sum(500));
    call(CALL_EXIT);
}

/* Writes over the ends of pages: of new ones, and of the same in a further process, which has to copy them. */
static void write_pieces(const char *rest)
{
    uint32_t own = pieces(0x12345678);
    bool is_child = call(CALL_FORK) == 0;
    if (is_child)
        own = pieces(0x9ABCDEF0);
    print("%s: %u of %u pieces are right\n", is_child ? "child" : "parent", own, PIECES);
    if (is_child)
        call(CALL_EXIT);
}

static void halt(const char *rest)
{
    status(rest);
    call(CALL_HALT);
}

static void help(const char *rest)
{
    cat("help");
}

static const struct command {
    const char *word;
    void (*act)(const char *rest);
} commands[] = {
    {"help", help},   {"list", list}, {"cat", cat},             {"echo", echo}, {"status", status},
    {"fault", fault}, {"deep", deep}, {"pieces", write_pieces}, {"halt", halt},
};

static void act(void)
{
    for (unsigned i = 0; i < sizeof commands / sizeof *commands; i++) {
        const char *rest = behind(line, commands[i].word);
        if (rest) {
            commands[i].act(rest);
            return;
        }
    }
    print("you typed: %s\n", line);
}

void shell(void)
{
    print("Type help for the commands.\n");
    for (;;)
        if (call(CALL_READ_LINE, line, sizeof line) > 0)
            act();
}
