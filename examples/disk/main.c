/* The beginning, and the commands that are typed. */
#include "board.h"
#include "check.h"
#include "files.h"
#include "terminal.h"

enum { LINE = 80, ROW = 16 };

static uint32_t blocks;         /* of the disk */
static bool is_halted;

static const char *const messages[] = {
    [DISK_TOO_SMALL] = "the disk is too small",
    [DISK_FULL] = "the disk is full",
    [NOT_FORMATTED] = "there is no file system on this disk; format makes one",
    [NOT_SOUND] = "the file system is damaged, and is only read",
    [DIRECTORY_FULL] = "the directory is full",
    [NO_FILE] = "there is no such file",
    [FILE_THERE] = "there is such a file already",
    [FILE_BROKEN] = "the file is broken here",
    [BAD_NAME] = "a name has 1 to 23 characters",
    [BAD_NUMBER] = "a block has a decimal number",
    [BAD_COMMAND] = "there is no such command; help tells them",
};

static void tell(enum status status)
{
    if (status == DISK_REFUSES)
        print("the disk refuses block %u\n", disk_refused);
    else if (status != DONE)
        print("%s\n", messages[status]);
}

/* ---- commands: what stands behind the first word is cut into a word and the rest */

static enum status do_format(char *name, char *rest)
{
    return volume_format(blocks);
}

static enum status do_check(char *name, char *rest)
{
    return check(blocks);
}

static enum status do_list(char *name, char *rest)
{
    if (!volume.is_open)
        return NOT_FORMATTED;
    for (int i = 0; i < FILES; i++) {
        const struct file *file = &volume.directory.files[i];
        if (file->name[0])
            print("%s: bytes %u, blocks %u\n", file->name, file->size, blocks_for(file->size));
    }
    return DONE;
}

static enum status do_create(char *name, char *rest)
{
    return file_create(name);
}

/* Makes a line of a text, which is part of the line that was typed; gives its length. */
static uint32_t make_line(char *line, const char *text)
{
    uint32_t length = 0;
    while (*text)
        line[length++] = *text++;
    line[length++] = '\n';
    return length;
}

static enum status do_write(char *name, char *rest)
{
    char line[LINE];
    return file_write(name, line, make_line(line, rest));
}

static enum status do_append(char *name, char *rest)
{
    char line[LINE];
    return file_append(name, line, make_line(line, rest));
}

/* Goes over the first bytes of a file, block by block; they are shown, or put behind those of another. */
static enum status each_block(const char *name, uint32_t size, const char *to)
{
    static union block block;
    for (uint32_t offset = 0, length; offset < size; offset += length) {
        enum status status = file_read(name, offset, &block, &length);
        if (status == DONE && length > size - offset)
            length = size - offset;
        if (status == DONE && to)
            status = file_append(to, block.bytes, length);
        else if (status == DONE)
            terminal_write(block.bytes, length);
        if (status != DONE) {
            if (to)
                print("%u of %u bytes are copied: ", offset, size);
            return status;
        }
    }
    return DONE;
}

static enum status do_copy(char *name, char *rest)
{
    const struct file *file = file_find(name);
    return !volume.is_open ? NOT_FORMATTED : file && file_find(rest) ? each_block(name, file->size, rest) : NO_FILE;
}

static enum status do_read(char *name, char *rest)
{
    const struct file *file = file_find(name);
    return !volume.is_open ? NOT_FORMATTED : file ? each_block(name, file->size, 0) : NO_FILE;
}

static enum status do_remove(char *name, char *rest)
{
    return file_remove(name);
}

/* A row of a block: its offset, its bytes, and those of them that are characters. */
static void show_row(const union block *block, uint32_t offset)
{
    char characters[ROW + 1];
    uint32_t first = offset / 4;
    for (uint32_t i = 0; i < ROW; i++) {
        uint8_t byte = block->bytes[offset + i];
        characters[i] = byte >= ' ' && byte <= '~' ? (char)byte : '.';
    }
    characters[ROW] = 0;
    print("%u: %x %x %x %x %s\n", offset, block->longs[first], block->longs[first + 1], block->longs[first + 2],
        block->longs[first + 3], characters);
}

/* Shows the rows of a block that are not all zero, of whatever block is named. */
static enum status do_block(char *name, char *rest)
{
    static union block block;
    uint32_t number = 0;
    if (*name == 0)
        return BAD_NUMBER;
    for (; *name; name++) {
        if (*name < '0' || *name > '9' || number > 99999999)
            return BAD_NUMBER;
        number = 10 * number + (uint32_t)(*name - '0');
    }
    if (!disk_read(number, &block))
        return DISK_REFUSES;
    for (uint32_t offset = 0; offset < BLOCK_BYTES; offset += ROW) {
        const uint32_t *row = &block.longs[offset / 4];
        if (row[0] | row[1] | row[2] | row[3])
            show_row(&block, offset);
    }
    return DONE;
}

static enum status do_halt(char *name, char *rest)
{
    is_halted = true;
    return DONE;
}

static enum status do_help(char *name, char *rest);

static const struct command {
    const char *name, *help;
    enum status (*run)(char *name, char *rest);
} commands[] = {
    {"help", "              these lines", do_help},
    {"format", "            makes an empty file system", do_format},
    {"check", "             looks whether the file system is sound", do_check},
    {"list", "              the files", do_list},
    {"create", " NAME       makes an empty file", do_create},
    {"write", " NAME TEXT   a line in place of what a file has", do_write},
    {"append", " NAME TEXT  a line behind what a file has", do_append},
    {"copy", " NAME TO      what a file has, behind what another has", do_copy},
    {"read", " NAME         what a file has", do_read},
    {"remove", " NAME       removes a file", do_remove},
    {"block", " NUMBER      a block of the disk, as it is", do_block},
    {"halt", "              the machine switches off", do_halt},
};

enum { COMMANDS = sizeof commands / sizeof commands[0] };

static enum status do_help(char *name, char *rest)
{
    for (int i = 0; i < COMMANDS; i++)
        print("%s%s\n", commands[i].name, commands[i].help);
    return DONE;
}

/* Ends the first word of a text with a 0; gives what stands behind it. */
static char *cut(char *text)
{
    while (*text && *text != ' ')
        text++;
    if (*text)
        *text++ = 0;
    return text;
}

static enum status do_line(char *line)
{
    char *name = cut(line);
    char *rest = cut(name);
    if (*line == 0)
        return DONE;
    for (int i = 0; i < COMMANDS; i++)
        if (is_same_text(line, commands[i].name))
            return commands[i].run(name, rest);
    return BAD_COMMAND;
}

int main(void)
{
    static char line[LINE];
    blocks = disk_size();
    if (blocks == 0) {
        print("no disk is attached\n");
        return 0;
    }
    print("A small file system, on a disk of %u blocks. Type help for the commands.\n", blocks);
    terminal_begin();
    tell(check(blocks));
    while (!is_halted) {
        print("> ");
        terminal_line(line, sizeof line);
        tell(do_line(line));
    }
    return 0;
}
