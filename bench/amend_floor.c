/* amend_floor FILE OUT CODE..: how fast the pulses of one or two ticks are taken out of the signals of these codes.

   bench/instructions compares vcdedit-amend with it, which reads a file three times for that. It does so, too: in each
   pass it finds every word, looks up every code and takes every stamp. The second pass keeps the changes of the codes,
   of 272 bytes each, and the third writes what stands, in runs. It refuses nothing but what it can't go on with, so it
   reads only captures of make_captures: codes of at most 15 bytes. */
#include <fcntl.h>
#include <stdint.h>
#include <stdlib.h>
#include <string.h>
#include <unistd.h>

enum { PIECE = 1 << 20, LONGEST = 1 << 16, KEYS = 1 << 20, PULSE = 3 };
enum { LOOK, KEEP, COPY };

typedef struct { uint64_t tick, value, rest[32]; } Change;

/* A code with its changes, if it is amended, and how many of these the last pass has come to. */
typedef struct { char text[16]; int length, amended; Change *list; size_t count, room, at; } Code;

/* Where a pass is: the last tick, whether words go on up to $end, how many words of a $var came, and whether the value
   of a vector waits for its code. */
typedef struct { uint64_t tick; int skips, declares, place, in_body, waits; } State;

static Code codes[KEYS];
static char buffer[LONGEST + PIECE + 1], output[2 * PIECE], waiting[LONGEST];
static size_t unsent;
static int input, out;

static void send(void) {
  if (write(out, output, unsent) != (ssize_t)unsent) exit(1);
  unsent = 0;
}

static void put(const char *from, size_t count) {
  if (unsent + count > sizeof output) send();
  memcpy(output + unsent, from, count);
  unsent += count;
}

/* The place of a code in the table. */
static Code *find(const char *text, int length) {
  uint32_t hash = 2166136261u;
  for (int k = 0; k < length; k++) hash = (hash ^ (unsigned char)text[k]) * 16777619u;
  for (uint32_t place = hash % KEYS;; place = (place + 1) % KEYS) {
    Code *code = &codes[place];
    if (!code->length || (code->length == length && !memcmp(code->text, text, length))) return code;
  }
}

static Code *declare(const char *text, int length) {
  Code *code = find(text, length);
  if (length >= (int)sizeof code->text) exit(1);
  memcpy(code->text, text, length);
  code->length = length;
  return code;
}

static Code *declared(const char *text, int length) {
  Code *code = find(text, length);
  if (!code->length) exit(1);
  return code;
}

static int is_space(unsigned char byte) { return byte == 32 || (byte >= 9 && byte <= 13); }

static int is_word(const char *text, int length, const char *word) {
  return length == (int)strlen(word) && !memcmp(text, word, length);
}

static uint64_t tick_of(const char *digits, const char *after) {
  uint64_t tick = 0;
  for (; digits < after; digits++) {
    if ((unsigned)(*digits - '0') > 9) exit(1);
    tick = tick * 10 + (*digits - '0');
  }
  return tick;
}

static void keep(Code *code, uint64_t tick, char value) {
  if (code->count == code->room) {
    code->room = code->room ? 2 * code->room : 4096;
    code->list = realloc(code->list, code->room * sizeof(Change));
  }
  code->list[code->count++] = (Change){tick, value, {0}};
}

/* Whether the next change of a code begins or ends a pulse. */
static int is_of_pulse(Code *code) {
  Change *one = code->list + code->at++;
  if (code->at < code->count && one[1].tick - one->tick < PULSE) return 1;
  return code->at > 1 && one->tick - one[-1].tick < PULSE;
}

/* Takes a change of one bit, and gives whether it goes. */
static int take_change(State *state, int pass, const char *text, int length) {
  Code *code = declared(text + 1, length - 1);
  if (!code->amended) return 0;
  if (pass == KEEP) keep(code, state->tick, *text);
  return pass == COPY && is_of_pulse(code);
}

static void begin_command(State *state, const char *text, int length) {
  if (is_word(text, length, "$end") || (state->in_body && !memcmp(text, "$dump", 5))) return;
  if (is_word(text, length, "$enddefinitions")) state->in_body = 1;
  state->declares = is_word(text, length, "$var");
  state->skips = 1;
}

static void skip(State *state, const char *text, int length) {
  if (state->declares && ++state->place == 3) declare(text, length);
  if (is_word(text, length, "$end")) state->skips = state->declares = state->place = 0;
}

/* Takes a word, and gives whether it goes. */
static int take_word(State *state, int pass, const char *text, int length) {
  if (state->skips) {
    skip(state, text, length);
  } else if (state->waits) {
    declared(text, length);
    state->waits = 0;
  } else if (*text == '#') {
    state->tick = tick_of(text + 1, text + length);
  } else if (*text == 'b') {
    memcpy(waiting, text, length);
    state->waits = 1;
  } else if (*text == '$') {
    begin_command(state, text, length);
  } else {
    return take_change(state, pass, text, length);
  }
  return 0;
}

/* Takes the words of a piece; the last word of the file ends with it. Gives how many bytes are done. */
static size_t take_piece(State *state, int pass, size_t count, int is_last) {
  size_t at = 0, run = 0;
  for (;;) {
    size_t start = at;
    while (start < count && is_space(buffer[start])) start++;
    size_t stop = start;
    while (stop < count && !is_space(buffer[stop])) stop++;
    if (start == stop || (stop == count && !is_last)) break;
    if (take_word(state, pass, buffer + start, stop - start)) {
      put(buffer + run, at - run);
      run = stop;
    }
    at = stop;
  }
  if (pass == COPY) put(buffer + run, at - run);
  return at;
}

static void go_over(int pass) {
  State state = {0};
  size_t left = 0;
  ssize_t count;
  lseek(input, 0, SEEK_SET);
  do {
    count = read(input, buffer + left, PIECE);
    if (count < 0) exit(1);
    size_t all = left + count, done = take_piece(&state, pass, all, count == 0);
    left = all - done;
    memmove(buffer, buffer + done, left);
  } while (count > 0);
  if (pass == COPY) put(buffer, left);
}

int main(int count, char **words) {
  if (count < 3) return 2;
  input = open(words[1], O_RDONLY);
  out = open(words[2], O_WRONLY | O_CREAT | O_TRUNC, 0666);
  for (int k = 3; k < count; k++) declare(words[k], strlen(words[k]))->amended = 1;
  go_over(LOOK);
  go_over(KEEP);
  go_over(COPY);
  send();
  return 0;
}
