/* The drawing panel44.txt translated by hand: each part is a variable, each cycle one turn of the loop.
   It writes what asimrun writes for panel44.txt, byte for byte. The count of cycles may be given as
   an argument; it is 100000 otherwise. */
#include <stdint.h>
#include <stdio.h>
#include <stdlib.h>

#define WORD 0x7fffffffu

static const uint32_t table_first[256] = {
    501031174, 194, 148, 7, 0, 5, 49601, 1400674194,
    9640, 37057, 57, 3, 41343, 9, 11, 411513429,
    2044861737, 96, 132, 25, 13, 10, 61718, 646765666,
    247, 1485660802, 8, 4, 7, 46750, 207, 11,
    14724, 30, 206079637, 526088730, 91, 9, 8, 0,
    1176444736, 98, 8, 1127704558, 10, 280952371, 64374, 52581,
    1297706629, 312558791, 33049, 67, 38, 1700583478, 58126, 8,
    142, 31867, 7, 313576066, 54059, 231, 17259, 187,
    10, 65081, 2, 12, 1641072201, 943673879, 80, 2,
    40794, 6, 85, 8, 3, 12, 9, 550664451,
    21192, 10, 37842, 1, 59, 8, 38, 59,
    219, 49526, 32542, 19534, 34520, 701715017, 245, 145,
    2094038812, 1215043803, 58324, 1623162581, 1965416333, 8, 128, 245,
    176, 11, 217, 1314897874, 8, 418055049, 7, 2548,
    107, 44520, 2134959886, 1, 22034, 174, 11, 30,
    208455342, 9, 519611562, 225, 8121, 13, 10119, 1,
    10, 480411996, 58852, 249, 1, 12, 2, 7,
    230469754, 2074416602, 39, 483943059, 106, 8, 36597, 175,
    12, 10, 215, 14, 588703166, 12, 100, 163,
    1439770017, 1415028642, 12, 61385, 48077, 21, 2097453243, 8,
    31707, 27888, 52963475, 6, 1328502438, 116, 20652, 988,
    2, 2025951212, 119, 248, 42556, 202, 52435, 5404,
    35802, 1, 11, 12, 1505459625, 5, 132, 1793520470,
    8, 0, 51143, 1528, 52, 1100172887, 157, 1,
    179, 1820542328, 56654, 9, 13, 59, 1629612482, 1042410584,
    162, 50973, 4, 63102, 51057, 7, 1223728186, 13,
    10, 232, 9, 1, 40, 2, 5, 66,
    1406, 1473586693, 6, 7, 73632903, 5, 14, 61178,
    185, 17060, 15, 1, 1033646777, 48103, 1516024686, 1235273375,
    14, 187, 160, 172, 4132, 48, 13, 53250,
    165130291, 548862683, 14, 22, 5, 190, 0, 6091,
    528624330, 35723, 73, 147, 298651587, 58, 40778, 7,
};

static uint32_t events_words[256], queue_words[256], map_words[256], table_words[256];

/* bits b through t of a word */
static inline uint32_t bits(uint32_t word, int b, int t)
{
    return (word >> b) & (WORD >> (30 - (t - b)));
}

static inline uint32_t alu(uint32_t function, uint32_t left, uint32_t right)
{
    switch (function) {
    case 1: return right;
    case 2: return left;
    case 3: return WORD - left;
    case 4: return (left + right) & WORD;
    case 5: return (left - right) & WORD;
    case 6: return (uint32_t)((uint64_t)left << (right & 31)) & WORD;
    case 7: return (left * right) & WORD;
    case 8: return left & right;
    case 9: return left | right;
    case 10: return left ^ right;
    case 12: return left == right;
    case 13: return left < right;
    default: return 0;
    }
}

int main(int argc, char **argv)
{
    long cycles = argc > 1 ? atol(argv[1]) : 100000;
    /* held words */
    uint32_t count = 0, seed = 0, left = 0, right = 0, total = 0, limit = 0, mode = 0, last = 0;
    uint32_t events = 0, queue = 0, map = 0, table = 0;
    /* the words at place 0 of the memories with one word that do not store in every cycle */
    uint32_t limit_word = 0, last_word = 0;

    for (int i = 0; i < 256; i++)
        table_words[i] = table_first[i];

    for (long cycle = 0; cycle < cycles; cycle++) {
        uint32_t pick, route, gain, next, hold, store, lamp, mark;

        /* shown values */
        uint32_t up = (count + 1) & WORD;
        uint32_t wide = (seed * 1103515245u) & WORD;
        uint32_t mixed = (wide + 12345) & WORD;
        uint32_t none = 0;
        uint32_t pass = right;
        uint32_t keep = left;
        uint32_t inv = WORD - left;
        uint32_t add = (left + right) & WORD;
        uint32_t sub = (left - right) & WORD;
        uint32_t shl = (uint32_t)((uint64_t)left << bits(right, 0, 4)) & WORD;
        uint32_t mul = (left * right) & WORD;
        uint32_t and = left & right;
        uint32_t or = left | right;
        uint32_t xor = left ^ right;
        uint32_t code11 = 0;
        uint32_t same = bits(left, 28, 30) == bits(right, 28, 30);
        uint32_t less = left < right;
        uint32_t every = bits(count, 0, 2) == 0;
        uint32_t slow = bits(count, 0, 4) == 0;
        uint32_t over = limit < total;

        switch (bits(count, 0, 2)) {
        case 0: pick = seed; break;
        case 1: pick = left; break;
        case 2: pick = total; break;
        case 3: pick = wide; break;
        case 4: pick = events; break;
        case 5: pick = queue; break;
        case 6: pick = table; break;
        default: pick = map; break;
        }
        switch (bits(seed, 28, 30)) {
        case 0: route = none; break;
        case 1: route = pass; break;
        case 2: route = keep; break;
        case 3: route = inv; break;
        case 4: route = add; break;
        case 5: route = sub; break;
        case 6: route = shl; break;
        default: route = mul; break;
        }
        switch (bits(left, 4, 6)) {
        case 0: gain = and; break;
        case 1: gain = or; break;
        case 2: gain = xor; break;
        case 3: gain = code11; break;
        case 4: gain = same; break;
        case 5: gain = less; break;
        case 6: gain = pick; break;
        default: gain = route; break;
        }
        switch (bits(right, 3, 5)) {
        case 0: next = add; break;
        case 1: next = sub; break;
        case 2: next = mul; break;
        case 3: next = xor; break;
        case 4: next = up; break;
        case 5: next = mixed; break;
        case 6: next = gain; break;
        default: next = 1000; break;
        }
        uint32_t any = alu(bits(seed, 16, 19), route, gain);
        uint32_t sum = (total + any) & WORD;
        switch (bits(mode, 0, 2)) {
        case 0: hold = route; break;
        case 1: hold = gain; break;
        case 2: hold = next; break;
        case 3: hold = any; break;
        case 4: hold = sum; break;
        case 5: hold = total; break;
        case 6: hold = limit; break;
        default: hold = last; break;
        }
        uint32_t fold = bits(hold, 0, 14) ^ bits(hold, 15, 29);
        uint32_t spin = (uint32_t)((uint64_t)fold << bits(count, 0, 2)) & WORD;
        switch (bits(mode, 0, 2)) {
        case 0: store = fold; break;
        case 1: store = spin; break;
        case 2: store = hold; break;
        case 3: store = next; break;
        case 4: store = any; break;
        case 5: store = sum; break;
        case 6: store = left; break;
        default: store = right; break;
        }
        switch (bits(sum, 0, 2)) {
        case 0: lamp = count; break;
        case 1: lamp = seed; break;
        case 2: lamp = left; break;
        case 3: lamp = right; break;
        case 4: lamp = hold; break;
        case 5: lamp = store; break;
        case 6: lamp = gain; break;
        default: lamp = route; break;
        }
        switch (bits(lamp, 0, 2)) {
        case 0: mark = bits(events, 0, 7); break;
        case 1: mark = bits(queue, 0, 7); break;
        case 2: mark = bits(table, 0, 7); break;
        case 3: mark = bits(map, 0, 7); break;
        case 4: mark = 16 | bits(events, 0, 3); break;
        case 5: mark = less << 2 | same << 1 | over; break;
        case 6: mark = bits(last, 0, 9); break;
        default: mark = 42; break;
        }

        /* the trace line */
        printf("Cycle %3ld count= %u seed= %u total= %u events= %u table= %u hold= %u store= %u mark= %u\n",
               cycle, count, seed, total, events, table, hold, store, mark);

        /* the step: addresses first, as the held words change below */
        uint32_t events_at = bits(seed, 8, 15);
        uint32_t queue_at = bits(fold, 0, 7);
        uint32_t map_at = bits(left, 8, 15);
        uint32_t table_at = bits(any, 0, 7);

        count = up;
        left = seed;
        seed = mixed;
        right = pick;
        total = sum;
        if (over)
            limit_word = hold;
        limit = limit_word;
        mode = bits(next, 5, 7);
        if (every)
            last_word = store;
        last = last_word;
        if (every)
            events_words[events_at] = store;
        events = events_words[events_at];
        if (less)
            queue_words[queue_at] = gain;
        queue = queue_words[queue_at];
        if (same)
            map_words[map_at] = sum;
        map = map_words[map_at];
        table = table_words[table_at];

        /* the notes, by rank */
        if (every)
            printf("  Write to events at %u: %u\n", events_at, events);
        if (slow)
            printf("  Read from table at %u: %u\n", table_at, table);
    }
    printf("Done %ld\n", cycles);
    return 0;
}
