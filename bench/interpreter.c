/* A plain interpreter of RV32IM, as a yardstick for `mssp run`, and as a second opinion on it.

   interpreter run PROGRAM [--input FILE] [--budget STEPS] [--steps FILE]

   It takes one instruction a turn and decodes it by switches; it keeps no decoded code and makes none.  Calls, ends, refusals
   and statuses are those of `mssp run`, with `interpreter:` in front of each line on standard error.  --steps writes how many
   steps the run had.  It knows nothing of mssp's sources: it is written from README.md, docs/FORMATS.md, examples/README.md and
   the RISC-V manual.

   gcc -O2 -o interpreter interpreter.c      (for a little-endian host) */
#include <errno.h>
#include <inttypes.h>
#include <stdbool.h>
#include <stdint.h>
#include <stdio.h>
#include <stdlib.h>
#include <string.h>
#include <unistd.h>

enum status { USAGE = 110, ABSENT = 111, STORE_FAULT = 112, SINK_FAULT = 113, MEMORY = 114, TOO_LONG = 115, PROGRAM = 116,
              BUDGET = 120, TRAP = 121 };

static _Noreturn void stop(enum status status, const char *line, const char *name)
{
    fprintf(stderr, "interpreter: %s%s\n", line, name);
    exit(status);
}

/* Memory: 65,536 pages of 64 KiB, each made when it is written first. */

enum { PAGE_SIZE = 1 << 16, PAGES = 1 << 16 };

static uint8_t *pages[PAGES];
static const uint8_t zeros[PAGE_SIZE];

static inline const uint8_t *readable(uint32_t address)
{
    const uint8_t *page = pages[address / PAGE_SIZE];
    return (page ? page : zeros) + address % PAGE_SIZE;
}

static __attribute__((noinline)) uint8_t *new_page(uint32_t address)
{
    uint8_t *page = calloc(1, PAGE_SIZE);
    if (!page)
        stop(MEMORY, "memory", "");
    return pages[address / PAGE_SIZE] = page;
}

static inline uint8_t *writable(uint32_t address)
{
    uint8_t *page = pages[address / PAGE_SIZE];
    return (page ? page : new_page(address)) + address % PAGE_SIZE;
}

static inline bool is_on_one_page(uint32_t address, uint32_t size)
{
    return address % PAGE_SIZE <= PAGE_SIZE - size;
}

static __attribute__((noinline)) uint32_t load_across(uint32_t address, int size)
{
    uint32_t value = 0;
    for (int i = size; i-- > 0;)
        value = value << 8 | *readable(address + (uint32_t)i);
    return value;
}

static __attribute__((noinline)) void store_across(uint32_t address, uint32_t value, int size)
{
    for (int i = 0; i < size; i++)
        *writable(address + (uint32_t)i) = (uint8_t)(value >> 8 * i);
}

static inline uint8_t load_byte(uint32_t address)
{
    return *readable(address);
}

static inline uint16_t load_half(uint32_t address)
{
    uint16_t value;
    if (!is_on_one_page(address, sizeof value))
        return (uint16_t)load_across(address, sizeof value);
    memcpy(&value, readable(address), sizeof value);
    return value;
}

static inline uint32_t load_word(uint32_t address)
{
    uint32_t value;
    if (!is_on_one_page(address, sizeof value))
        return load_across(address, sizeof value);
    memcpy(&value, readable(address), sizeof value);
    return value;
}

static inline void store_byte(uint32_t address, uint8_t value)
{
    *writable(address) = value;
}

static inline void store_half(uint32_t address, uint16_t value)
{
    if (is_on_one_page(address, sizeof value))
        memcpy(writable(address), &value, sizeof value);
    else
        store_across(address, value, sizeof value);
}

static inline void store_word(uint32_t address, uint32_t value)
{
    if (is_on_one_page(address, sizeof value))
        memcpy(writable(address), &value, sizeof value);
    else
        store_across(address, value, sizeof value);
}

/* Files. */

struct file {
    uint8_t *bytes;
    size_t length;
};

static struct file read_file(const char *name, size_t limit)
{
    FILE *stream = fopen(name, "rb");
    if (!stream)
        stop(errno == ENOENT ? ABSENT : STORE_FAULT, errno == ENOENT ? "absent " : "store fault ", name);
    struct file file = {NULL, 0};
    for (size_t room = 0; !feof(stream);) {
        if (file.length == room) {
            room = room ? 2 * room : PAGE_SIZE;
            file.bytes = realloc(file.bytes, room);
            if (!file.bytes)
                stop(MEMORY, "memory", "");
        }
        file.length += fread(file.bytes + file.length, 1, room - file.length, stream);
        if (ferror(stream))
            stop(STORE_FAULT, "store fault ", name);
        if (file.length > limit)
            stop(TOO_LONG, "too long ", name);
    }
    fclose(stream);
    return file;
}

/* Executables. */

struct start {
    uint32_t entry, first_break;
};

struct part {
    uint32_t type, offset, address, physical, in_file, in_memory, flags, alignment;
};

static uint16_t half_at(const struct file *file, size_t place)
{
    uint16_t value;
    memcpy(&value, file->bytes + place, sizeof value);
    return value;
}

static uint32_t word_at(const struct file *file, size_t place)
{
    uint32_t value;
    memcpy(&value, file->bytes + place, sizeof value);
    return value;
}

static struct part part_at(const struct file *file, uint32_t number)
{
    struct part part;
    memcpy(&part, file->bytes + word_at(file, 28) + sizeof part * number, sizeof part);
    return part;
}

/* why the file is refused, in the order of the tests, or NULL */
static const char *refusal(const struct file *file)
{
    static char told[32];
    const uint8_t magic[] = {0x7F, 'E', 'L', 'F'};
    if (file->length < 52)
        return "short";
    if (memcmp(file->bytes, magic, sizeof magic) != 0)
        return "magic";
    if (file->bytes[4] != 1)
        return "class";
    if (file->bytes[5] != 1)
        return "endian";
    if (file->bytes[6] != 1)
        return "version";
    if (half_at(file, 16) != 2)
        return "kind";
    if (half_at(file, 18) != 243)
        return "machine";
    if (word_at(file, 36) % 16 != 0)
        return "flags";
    if (word_at(file, 24) % 4 != 0)
        return "entry";
    uint32_t count = half_at(file, 44);
    uint64_t table = (uint64_t)word_at(file, 28) + count * sizeof(struct part);
    if (count > 0 && (half_at(file, 42) != sizeof(struct part) || table > file->length))
        return "table";
    if (count > 64)
        return "too many";
    for (uint32_t i = 0; i < count; i++)
        if (part_at(file, i).type == 3)
            return "interp";
    for (uint32_t i = 0; i < count; i++) {
        struct part part = part_at(file, i);
        const char *word = (uint64_t)part.offset + part.in_file > file->length          ? "outside"
                           : part.in_file > part.in_memory                              ? "larger"
                           : (uint64_t)part.address + part.in_memory > UINT32_C(0xFFFFF000) ? "wraps"
                                                                                         : NULL;
        if (part.type == 1 && word) {
            snprintf(told, sizeof told, "%s %" PRIu32, word, i);
            return told;
        }
    }
    return NULL;
}

/* zeros where a page has been written; the others are zeros already */
static void clear(uint32_t address, uint32_t count)
{
    while (count > 0) {
        uint32_t here = PAGE_SIZE - address % PAGE_SIZE;
        if (here > count)
            here = count;
        if (pages[address / PAGE_SIZE])
            memset(writable(address), 0, here);
        address += here;
        count -= here;
    }
}

static struct start load(const char *name)
{
    struct file file = read_file(name, (size_t)16 << 20);
    const char *reason = refusal(&file);
    if (reason) {
        fprintf(stderr, "interpreter: program %s: %s\n", name, reason);
        exit(PROGRAM);
    }
    uint64_t end = 0;
    for (uint32_t i = 0; i < half_at(&file, 44); i++) {
        struct part part = part_at(&file, i);
        if (part.type != 1)
            continue;
        for (uint32_t k = 0; k < part.in_file; k++)
            store_byte(part.address + k, file.bytes[part.offset + k]);
        clear(part.address + part.in_file, part.in_memory - part.in_file);
        if ((uint64_t)part.address + part.in_memory > end)
            end = (uint64_t)part.address + part.in_memory;
    }
    struct start start = {word_at(&file, 24), (uint32_t)((end + 4095) / 4096 * 4096)};
    free(file.bytes);
    return start;
}

/* The machine. */

enum end { RUNNING, EXITED, BROKE, NO_INSTRUCTION, MISSED };

struct machine {
    uint32_t x[32], pc;
    uint64_t steps;
    enum end end;
    uint32_t value; /* the code, the word or the target of the end */
    uint32_t first_break, current_break;
    struct file input;
    size_t taken;
};

static void put_output(const uint8_t *bytes, size_t count)
{
    while (count > 0) {
        ssize_t put = write(STDOUT_FILENO, bytes, count);
        if (put <= 0)
            stop(SINK_FAULT, "sink fault", "");
        bytes += put;
        count -= (size_t)put;
    }
}

static uint32_t at_most(uint32_t count, size_t limit)
{
    return count < limit ? count : (uint32_t)limit;
}

enum { READ = 63, WRITE = 64, EXIT = 93, EXIT_GROUP = 94, BREAK = 214, LONGEST = 65536 };

/* the call of the number in x17; whether the run goes on */
static __attribute__((noinline)) bool call(struct machine *machine)
{
    uint32_t *x = machine->x, answer = (uint32_t)-38;
    switch (x[17]) {
    case READ: {
        uint32_t count = at_most(at_most(x[12], LONGEST), machine->input.length - machine->taken);
        answer = x[10] == 0 ? count : (uint32_t)-9;
        for (uint32_t i = 0; x[10] == 0 && i < count; i++)
            store_byte(x[11] + i, machine->input.bytes[machine->taken++]);
        break;
    }
    case WRITE: {
        static uint8_t bytes[LONGEST];
        uint32_t count = at_most(x[12], LONGEST);
        answer = (uint32_t)-9;
        if (x[10] == 1 || x[10] == 2) {
            for (uint32_t i = 0; i < count; i++)
                bytes[i] = load_byte(x[11] + i);
            put_output(bytes, count);
            answer = count;
        }
        break;
    }
    case EXIT:
    case EXIT_GROUP:
        machine->end = EXITED;
        machine->value = x[10];
        return false;
    case BREAK:
        if (x[10] >= machine->first_break && x[10] <= 0x70000000)
            machine->current_break = x[10];
        answer = machine->current_break;
        break;
    }
    x[10] = answer;
    return true;
}

/* the fields of a word */
static inline uint32_t field(uint32_t word, int low, int size)
{
    return word >> low & ((UINT32_C(1) << size) - 1);
}

static inline uint32_t immediate_i(uint32_t word)
{
    return (uint32_t)((int32_t)word >> 20);
}

static inline uint32_t immediate_s(uint32_t word)
{
    return (immediate_i(word) & ~UINT32_C(31)) | field(word, 7, 5);
}

static inline uint32_t immediate_b(uint32_t word)
{
    return ((uint32_t)((int32_t)word >> 31) << 12) | field(word, 7, 1) << 11 | field(word, 25, 6) << 5 | field(word, 8, 4) << 1;
}

static inline uint32_t immediate_j(uint32_t word)
{
    return ((uint32_t)((int32_t)word >> 31) << 20) | (word & 0xFF000) | field(word, 20, 1) << 11 | field(word, 21, 10) << 1;
}

static inline uint32_t shift_right(uint32_t value, uint32_t count)
{
    return (uint32_t)((int32_t)value >> (count & 31));
}

static inline uint32_t divide(uint32_t a, uint32_t b)
{
    if (b == 0)
        return UINT32_MAX;
    return b == UINT32_MAX ? -a : (uint32_t)((int32_t)a / (int32_t)b);
}

static inline uint32_t remainder_of(uint32_t a, uint32_t b)
{
    if (b == 0)
        return a;
    return b == UINT32_MAX ? 0 : (uint32_t)((int32_t)a % (int32_t)b);
}

/* where a word has no meaning */
#define NONE goto no_instruction

static void run(struct machine *machine, uint64_t budget)
{
    uint32_t *x = machine->x, pc = machine->pc, word = 0, next = 0;
    uint64_t left = budget;
    for (; left > 0; left--) {
        word = load_word(pc);
        next = pc + 4;
        uint32_t a = x[field(word, 15, 5)], b = x[field(word, 20, 5)], kind = field(word, 12, 3), high = field(word, 25, 7);
        uint32_t value;
        switch (field(word, 0, 7)) {
        case 0x37: /* LUI */
            value = word & 0xFFFFF000;
            break;
        case 0x17: /* AUIPC */
            value = pc + (word & 0xFFFFF000);
            break;
        case 0x6F: /* JAL */
            value = next;
            next = pc + immediate_j(word);
            if (next % 4 != 0)
                goto missed;
            break;
        case 0x67: /* JALR */
            if (kind != 0)
                NONE;
            value = next;
            next = (a + immediate_i(word)) & ~UINT32_C(1);
            if (next % 4 != 0)
                goto missed;
            break;
        case 0x63: { /* branches */
            bool taken;
            switch (kind) {
            case 0: taken = a == b; break;
            case 1: taken = a != b; break;
            case 4: taken = (int32_t)a < (int32_t)b; break;
            case 5: taken = (int32_t)a >= (int32_t)b; break;
            case 6: taken = a < b; break;
            case 7: taken = a >= b; break;
            default: NONE;
            }
            if (taken) {
                next = pc + immediate_b(word);
                if (next % 4 != 0)
                    goto missed;
            }
            pc = next;
            continue;
        }
        case 0x03: { /* loads */
            uint32_t address = a + immediate_i(word);
            switch (kind) {
            case 0: value = (uint32_t)(int8_t)load_byte(address); break;
            case 1: value = (uint32_t)(int16_t)load_half(address); break;
            case 2: value = load_word(address); break;
            case 4: value = load_byte(address); break;
            case 5: value = load_half(address); break;
            default: NONE;
            }
            break;
        }
        case 0x23: { /* stores */
            uint32_t address = a + immediate_s(word);
            switch (kind) {
            case 0: store_byte(address, (uint8_t)b); break;
            case 1: store_half(address, (uint16_t)b); break;
            case 2: store_word(address, b); break;
            default: NONE;
            }
            pc = next;
            continue;
        }
        case 0x13: { /* a register and a number */
            uint32_t number = immediate_i(word);
            switch (kind) {
            case 0: value = a + number; break;
            case 1:
                if (high != 0)
                    NONE;
                value = a << (number & 31);
                break;
            case 2: value = (int32_t)a < (int32_t)number; break;
            case 3: value = a < number; break;
            case 4: value = a ^ number; break;
            case 5:
                if (high != 0 && high != 32)
                    NONE;
                value = high ? shift_right(a, number) : a >> (number & 31);
                break;
            case 6: value = a | number; break;
            default: value = a & number; break;
            }
            break;
        }
        case 0x33: /* two registers */
            switch (high << 3 | kind) {
            case 0: value = a + b; break;
            case 1: value = a << (b & 31); break;
            case 2: value = (int32_t)a < (int32_t)b; break;
            case 3: value = a < b; break;
            case 4: value = a ^ b; break;
            case 5: value = a >> (b & 31); break;
            case 6: value = a | b; break;
            case 7: value = a & b; break;
            case 8: value = a * b; break;
            case 9: value = (uint32_t)((int64_t)(int32_t)a * (int32_t)b >> 32); break;
            case 10: value = (uint32_t)((int64_t)(int32_t)a * (int64_t)b >> 32); break;
            case 11: value = (uint32_t)((uint64_t)a * b >> 32); break;
            case 12: value = divide(a, b); break;
            case 13: value = b ? a / b : UINT32_MAX; break;
            case 14: value = remainder_of(a, b); break;
            case 15: value = b ? a % b : a; break;
            case 32 << 3: value = a - b; break;
            case 32 << 3 | 5: value = shift_right(a, b); break;
            default: NONE;
            }
            break;
        case 0x0F: /* FENCE, FENCE.I */
            if (kind > 1)
                NONE;
            pc = next;
            continue;
        case 0x73:
            if (word == 0x00100073) {
                machine->end = BROKE;
                goto ended;
            }
            if (word != 0x00000073)
                NONE;
            if (!call(machine))
                goto ended;
            pc = next;
            continue;
        default:
            NONE;
        }
        x[field(word, 7, 5)] = value;
        x[0] = 0;
        pc = next;
    }
    goto stopped;
missed:
    machine->end = MISSED;
    machine->value = next;
    goto ended;
no_instruction:
    machine->end = NO_INSTRUCTION;
    machine->value = word;
ended:
    left--;
stopped:
    machine->pc = pc;
    machine->steps = budget - left;
}

static uint64_t number_of(const char *word, uint64_t most)
{
    uint64_t number = 0;
    for (const char *digit = word; *digit; digit++) {
        if (*digit < '0' || *digit > '9' || number > most)
            stop(USAGE, "usage", "");
        number = 10 * number + (uint64_t)(*digit - '0');
    }
    if (number == 0 || number > most || *word == '0')
        stop(USAGE, "usage", "");
    return number;
}

int main(int count, char **words)
{
    const char *input = NULL, *steps = NULL;
    uint64_t budget = 1000000000;
    if (count < 3 || count % 2 == 0 || strcmp(words[1], "run") != 0)
        stop(USAGE, "usage", "");
    for (int i = 3; i < count; i += 2) {
        if (strcmp(words[i], "--input") == 0)
            input = words[i + 1];
        else if (strcmp(words[i], "--steps") == 0)
            steps = words[i + 1];
        else if (strcmp(words[i], "--budget") == 0)
            budget = number_of(words[i + 1], 1000000000000);
        else
            stop(USAGE, "usage", "");
    }
    struct start start = load(words[2]);
    struct machine machine = {.pc = start.entry, .first_break = start.first_break, .current_break = start.first_break};
    machine.x[2] = 0x7FFFFFC0;
    if (input)
        machine.input = read_file(input, (size_t)64 << 20);
    run(&machine, budget);
    if (steps) {
        FILE *stream = fopen(steps, "w");
        if (!stream || fprintf(stream, "%" PRIu64 "\n", machine.steps) < 0 || fclose(stream) != 0)
            stop(STORE_FAULT, "store fault ", steps);
    }
    if (machine.end == RUNNING)
        stop(BUDGET, "budget", "");
    if (machine.end == EXITED)
        return (int)(machine.value % 256);
    fprintf(stderr, "interpreter: trap %08" PRIx32, machine.pc);
    if (machine.end == BROKE)
        fprintf(stderr, " break\n");
    else
        fprintf(stderr, " %s %08" PRIx32 "\n", machine.end == MISSED ? "misfetch" : "illegal", machine.value);
    return TRAP;
}
