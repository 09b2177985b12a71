// The loops of leb_cursor.rt.txt in C, for machines without rustc: the same forms, the same bytes.
#include <stddef.h>
#include <stdint.h>
#include <stdio.h>
#include <stdlib.h>
#include <string.h>
#include <time.h>

enum { COUNT = 1000000, ROUNDS = 100 };

struct cursor {
    const uint8_t *bytes;
    size_t place, end;
};

// 0 where a number was read, else the fault
static inline int uleb(struct cursor *c, uint64_t *number) {
    size_t left = c->end - c->place;
    const uint8_t *rest = c->bytes + c->place;
    if (left > 0 && rest[0] < 128) {
        c->place += 1;
        *number = rest[0];
        return 0;
    }
    size_t limit = left < 9 ? left : 9;
    uint64_t sum = 0;
    for (size_t index = 0; index < limit; index++) {
        sum += (uint64_t)(rest[index] & 127) << (7 * index);
        if (rest[index] < 128) {
            c->place += index + 1;
            *number = sum;
            return 0;
        }
    }
    if (left < 10) return 1;
    if (rest[9] > 1) return 2;
    c->place += 10;
    *number = sum + ((uint64_t)rest[9] << 63);
    return 0;
}

static inline int text(struct cursor *c, size_t *length) {
    const uint8_t *rest = c->bytes + c->place;
    const uint8_t *zero = memchr(rest, 0, c->end - c->place);
    if (!zero) return 3;
    *length = (size_t)(zero - rest);
    c->place += *length + 1;
    return 0;
}

static uint64_t next(uint64_t state) {
    return state * 6364136223846793005u + 1442695040888963407u;
}

static uint8_t *bytes;
static size_t used, room;

static void push(uint8_t byte) {
    if (used == room) {
        room = room ? 2 * room : 1024;
        bytes = realloc(bytes, room);
        if (!bytes) exit(1);
    }
    bytes[used++] = byte;
}

static struct cursor make_numbers(void) {
    bytes = NULL, used = room = 0;
    uint64_t state = 1;
    for (int i = 0; i < COUNT; i++) {
        state = next(state);
        uint64_t pick = (state >> 40) % 100;
        int more = pick < 62 ? 0 : pick < 87 ? 1 : pick < 99 ? 2 : 4;
        for (int j = 0; j < more; j++) {
            state = next(state);
            push((uint8_t)(128 + (state >> 40) % 128));
        }
        state = next(state);
        push((uint8_t)((state >> 40) % 128));
    }
    return (struct cursor){bytes, 0, used};
}

static struct cursor make_texts(void) {
    bytes = NULL, used = room = 0;
    uint64_t state = 2;
    for (int i = 0; i < COUNT; i++) {
        state = next(state);
        uint64_t length = (state >> 40) % 32;
        for (uint64_t j = 0; j < length; j++) {
            state = next(state);
            push((uint8_t)(97 + (state >> 40) % 26));
        }
        push(0);
    }
    return (struct cursor){bytes, 0, used};
}

static uint64_t read_numbers(struct cursor c) {
    uint64_t total = 0, number;
    while (!uleb(&c, &number)) total += number;
    return total;
}

static uint64_t read_texts(struct cursor c) {
    uint64_t total = 0;
    size_t length;
    while (!text(&c, &length)) total += length;
    return total;
}

static long now(void) {
    struct timespec t;
    clock_gettime(CLOCK_MONOTONIC, &t);
    return t.tv_sec * 1000 + t.tv_nsec / 1000000;
}

int main(void) {
    struct cursor numbers = make_numbers(), texts = make_texts();
    uint64_t total = 0;
    long start = now();
    for (int i = 0; i < ROUNDS; i++) total += read_numbers(numbers);
    long middle = now();
    for (int i = 0; i < ROUNDS; i++) total += read_texts(texts);
    long end = now();
    printf("%ld %ld %llu\n", middle - start, end - middle, (unsigned long long)total);
    return 0;
}
