/* floor FILE OUT: how fast a capture is read into lists of changes of 272 bytes, one for each code, and written again.

   bench/compare compares vcdedit with it. It takes time for nothing else: it refuses nothing, proves nothing and keeps
   no names. So it reads only captures of make_captures: values of at most 64 bits, codes of at most three bytes. The
   declarations are left out of what it writes; the rest is vcdedit's text, byte for byte. */
#define _GNU_SOURCE
#include <fcntl.h>
#include <stdint.h>
#include <stdio.h>
#include <stdlib.h>
#include <string.h>
#include <sys/mman.h>
#include <unistd.h>

enum { MOST = 70000, KEYS = 1 << 21, FULL = 1 << 16, LARGE_PAGE = 2 << 20 };

/* A letter is two bits: 0, 1, z and x have 0, 1, 2 and 3. A value has a plane of low and one of high bits. */
typedef struct { uint64_t low, high; } Value;

/* A change in the form that vcdedit's interface fixes: values of up to 1,024 bits, so 16 words a plane. */
typedef struct { uint64_t tick, width; Value words[16]; } Change;

/* A change in the order of the file. */
typedef struct { uint64_t tick; uint32_t code; Value value; } Logged;

/* A code: its variables are a list from the first on. `written` of its changes have been written. */
typedef struct { int width, first; Change *changes; size_t count, written; } Code;

/* A variable: its code in the file, the next variable of that code, and the code that is written. */
typedef struct { int code, next, length; char text[4]; } Variable;

static int code_at[KEYS], code_count, variable_count, changed[MOST];
static Code codes[MOST];
static Variable variables[MOST];
static char *buffer, *end;
static int output;

static uint64_t ones(int count) { return ~0ull >> (64 - count); }

static Value all_x(int width) { return (Value){ones(width), ones(width)}; }

/* Memory that is cleared by its first use, in large pages. */
static void *large(size_t bytes) {
  char *all = mmap(0, bytes + LARGE_PAGE, PROT_READ | PROT_WRITE, MAP_PRIVATE | MAP_ANONYMOUS | MAP_NORESERVE, -1, 0);
  if (all == MAP_FAILED) exit(1);
  char *start = all + (LARGE_PAGE - (uintptr_t)all % LARGE_PAGE) % LARGE_PAGE;
  madvise(start, bytes, MADV_HUGEPAGE);
  return start;
}

/* The whole of a file, and a byte 0. */
static char *read_file(const char *path, char **after) {
  int input = open(path, O_RDONLY);
  off_t size = lseek(input, 0, SEEK_END);
  char *text = malloc(size + 1);
  if (pread(input, text, size, 0) != size) exit(1);
  text[size] = 0;
  *after = text + size;
  return text;
}

/* The place of a code in the table. */
static int key(const char *text, long length) {
  uint32_t place = 0;
  for (long k = 0; k < length; k++) place = place * 95 + (text[k] - 32);
  return place % KEYS;
}

static void declare(int width, const char *code, const char *after) {
  int place = key(code, after - code);
  if (code_at[place] < 0) {
    codes[code_count] = (Code){.width = width, .first = -1};
    code_at[place] = code_count++;
  }
  Variable *variable = &variables[variable_count];
  *variable = (Variable){.code = code_at[place], .next = codes[code_at[place]].first};
  codes[variable->code].first = variable_count++;
  for (int left = variable_count; left > 0; left = (left - 1) / 94)
    variable->text[variable->length++] = '!' + (left - 1) % 94;
}

static char *after_word(char *text) {
  while (*text > ' ') text++;
  return text;
}

static char *read_declarations(char *text) {
  char *body = strstr(text, "$enddefinitions $end\n");
  memset(code_at, -1, sizeof code_at);
  while ((text = strstr(text, "$var ")) && text < body) {
    char *size = after_word(text + strlen("$var ")), *code;
    int width = strtol(size, &code, 10);
    text = after_word(++code);
    declare(width, code, text);
  }
  return body + strlen("$enddefinitions $end\n");
}

/* The value of a number in base 2, which is extended by its first letter if that is x or z. */
static Value value_of(const char *digits, const char *after, int width) {
  Value value = {0, 0};
  int count = after - digits;
  for (const char *at = digits; at < after; at++) {
    value.low = value.low << 1 | (*at == '1' || *at == 'x');
    value.high = value.high << 1 | (*at == 'x' || *at == 'z');
  }
  if (count < width && (*digits == 'x' || *digits == 'z')) {
    value.high |= ones(width) & ~ones(count);
    if (*digits == 'x') value.low |= ones(width) & ~ones(count);
  }
  return value;
}

/* The changes in the order of the file; the last tick is that of the end. */
static Logged *read_changes(char *text, char *after, size_t *count, uint64_t *tick) {
  Logged *log = large((after - text) * 8);
  while (text < after) {
    char first = *text++, *digits = text - 1, *code = text;
    if (first == '#') {
      for (*tick = 0; *text >= '0'; text++) *tick = *tick * 10 + (*text - '0');
    } else if (first == 'b' || first == '0' || first == '1' || first == 'x' || first == 'z') {
      if (first == 'b') {
        digits = code;
        code = after_word(digits) + 1;
      }
      text = after_word(code);
      int of = code_at[key(code, text - code)];
      Value value = value_of(digits, first == 'b' ? code - 1 : code, codes[of].width);
      log[(*count)++] = (Logged){*tick, of, value};
      codes[of].count++;
    } else {
      text = after_word(text);
    }
    text++;
  }
  return log;
}

/* The lists of all codes. Of several changes at a tick the last counts, and one that changes nothing is left out. */
static void make_lists(const Logged *log, size_t count) {
  Change *area = large(count * sizeof(Change));
  for (int k = 0; k < code_count; k++) {
    codes[k].changes = area;
    area += codes[k].count;
    codes[k].count = 0;
  }
  for (const Logged *one = log; one < log + count; one++) {
    Code *code = &codes[one->code];
    if (code->count && code->changes[code->count - 1].tick == one->tick) code->count--;
    Value before = code->count ? code->changes[code->count - 1].words[0] : all_x(code->width);
    if (before.low == one->value.low && before.high == one->value.high) continue;
    code->changes[code->count++] = (Change){one->tick, code->width, {one->value}};
  }
}

static void send(size_t least) {
  if ((size_t)(end - buffer) < least) return;
  if (write(output, buffer, end - buffer) < 0) exit(1);
  end = buffer;
}

static void put_stamp(uint64_t tick) {
  char text[24];
  int at = sizeof text;
  text[--at] = '\n';
  do text[--at] = '0' + tick % 10;
  while (tick /= 10);
  text[--at] = '#';
  end = mempcpy(end, text + at, sizeof text - at);
}

static int letter(Value value, int bit) { return (value.low >> bit & 1) | (value.high >> bit & 1) << 1; }

/* How many letters the short form has. */
static int short_length(Value value, int width) {
  int length = width, top = letter(value, width - 1);
  if (top >= 2) {
    while (length > 1 && letter(value, length - 2) == top) length--;
    return length;
  }
  while (length > 1 && letter(value, length - 1) == 0) length--;
  return length < width && letter(value, length - 1) >= 2 ? length + 1 : length;
}

static void put_value(const Variable *variable, int width, Value value) {
  if (width == 1) {
    *end++ = "01zx"[letter(value, 0)];
  } else {
    *end++ = 'b';
    for (int left = short_length(value, width); left--;) *end++ = "01zx"[letter(value, left)];
    *end++ = ' ';
  }
  memcpy(end, variable->text, 4);
  end += variable->length;
  *end++ = '\n';
  send(FULL);
}

static void write_first_values(void) {
  end = stpcpy(end, "#0\n$dumpvars\n");
  for (int k = 0; k < variable_count; k++) {
    Code *code = &codes[variables[k].code];
    code->written = code->count && code->changes[0].tick == 0;
    put_value(&variables[k], code->width, code->written ? code->changes[0].words[0] : all_x(code->width));
  }
  end = stpcpy(end, "$end\n");
}

static int compare(const void *a, const void *b) { return *(const int *)a - *(const int *)b; }

/* Puts the variables that change at a tick into a list, in their order. The log shows their codes. */
static int list_changed(const Logged *log, const Logged *after, uint64_t tick) {
  int count = 0, rises = 1;
  for (; log < after; log++) {
    Code *code = &codes[log->code];
    if (code->written == code->count || code->changes[code->written].tick != tick) continue;
    code->written++;
    for (int k = code->first; k >= 0; k = variables[k].next) {
      rises &= count == 0 || changed[count - 1] < k;
      changed[count++] = k;
    }
  }
  if (!rises) qsort(changed, count, sizeof *changed, compare);
  return count;
}

static void write_changes(const Logged *log, size_t count, uint64_t last_tick) {
  uint64_t last = 0;
  for (const Logged *one = log, *after = log + count, *next; one < after; one = next) {
    for (next = one; next < after && next->tick == one->tick;) next++;
    int changes = list_changed(one, next, one->tick);
    if (changes == 0) continue;
    put_stamp(last = one->tick);
    for (int k = 0; k < changes; k++) {
      Code *code = &codes[variables[changed[k]].code];
      put_value(&variables[changed[k]], code->width, code->changes[code->written - 1].words[0]);
    }
  }
  if (last_tick > last) put_stamp(last_tick);
}

int main(int count, char **words) {
  if (count != 3) return 2;
  char *after, *text = read_file(words[1], &after), *body = read_declarations(text);
  size_t changes = 0;
  uint64_t tick = 0;
  Logged *log = read_changes(body, after, &changes, &tick);
  make_lists(log, changes);
  output = open(words[2], O_WRONLY | O_CREAT | O_TRUNC, 0666);
  end = buffer = malloc(FULL + 4096);
  write_first_values();
  write_changes(log, changes, tick);
  send(0);
  return 0;
}
