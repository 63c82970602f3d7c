/* A tag simulated in plain C. A bit is 0 or 1. A level with unknowns is a mask of the bits that it allows: 1 for 0, 2 for 1, 3 for X.
   A state has one place more than the tag says, which is always 0: the pins that a gate does not use read it, so that every gate is four
   reads with no branch. */
#include "plain.h"
#include <stdlib.h>
#include <string.h>

enum { GATE, FLOP, ENABLED, INPUT, MEMORY, ZERO, ONE };

typedef struct {
    uint8_t use, pins;
    uint16_t truth, rise, fall, idle;
    uint16_t pin[4];
} Net;

typedef struct {
    Net *nets;
    uint32_t net_count, rom_count, ram_count, rom_bits, ram_bits, pilot_count, flop_count, input_count, start_count, places;
    uint16_t *rom, *ram, *ram_mask, *rom_address, *ram_address, *data, *pilots;
    const uint8_t *starts;
    uint16_t enable, mark;
    uint32_t rom_energy, ram_energy, write_energy;
} Tag;

static uint32_t two(const uint8_t *b) { return b[0] | b[1] << 8; }

static uint32_t log2_of(uint32_t n) { uint32_t k = 0; while (n >>= 1) k++; return k; }

static uint16_t *words(const uint8_t *b, uint32_t count, uint32_t step) {
    uint16_t *w = malloc(2 * (count + 1));
    for (uint32_t i = 0; i < count; i++) w[i] = two(b + step * i);
    return w;
}

static Tag *read_tag(const uint8_t *b) {
    Tag *t = calloc(1, sizeof *t);
    const uint8_t *body[7];
    uint32_t count[7];
    for (int i = 0; i < 7; i++) {
        const uint8_t *row = b + 18 + 8 * i;
        count[i] = two(row + 2);
        body[i] = b + (two(row + 4) | two(row + 6) << 16);
    }
    t->rom_energy = two(b + 6); t->ram_energy = two(b + 8); t->write_energy = two(b + 10);
    t->net_count = count[1];
    t->nets = calloc(count[1], sizeof(Net));
    for (uint32_t i = 0; i < count[1]; i++) {
        const uint8_t *n = body[1] + 10 * i, *c = body[0] + 10 * two(n);
        Net *net = &t->nets[i];
        net->pins = c[0]; net->use = c[1]; net->truth = two(c + 2); net->rise = two(c + 4); net->fall = two(c + 6); net->idle = two(c + 8);
        for (int j = 0; j < 4; j++) net->pin[j] = two(n + 2 + 2 * j);
        t->flop_count += net->use == FLOP || net->use == ENABLED;
        t->input_count += net->use == INPUT;
    }
    t->rom_count = count[2]; t->ram_count = count[3];
    t->rom = words(body[2], count[2], 2); t->ram = words(body[3], count[3], 4); t->ram_mask = words(body[3] + 2, count[3], 4);
    t->rom_bits = log2_of(count[2]); t->ram_bits = log2_of(count[3]);
    t->rom_address = words(body[4], t->rom_bits, 2);
    t->ram_address = words(body[4] + 2 * t->rom_bits, t->ram_bits, 2);
    t->enable = two(body[4] + 2 * (t->rom_bits + t->ram_bits));
    t->data = words(body[4] + 2 * (t->rom_bits + t->ram_bits + 1), 16, 2);
    t->mark = two(body[5]);
    t->pilot_count = count[5] - 1; t->pilots = words(body[5] + 2, t->pilot_count, 2);
    t->starts = body[6]; t->start_count = count[6] / t->flop_count;
    t->places = t->net_count + 16 * t->ram_count;
    for (uint32_t i = 0; i < t->net_count; i++)
        if (t->nets[i].use == GATE)
            for (int j = t->nets[i].pins; j < 4; j++) t->nets[i].pin[j] = t->places;
    return t;
}

static void free_tag(Tag *t) {
    free(t->nets); free(t->rom); free(t->ram); free(t->ram_mask); free(t->rom_address); free(t->ram_address); free(t->data); free(t->pilots); free(t);
}

/* ---- in bits */

static void settle_bits(const Tag *t, uint8_t *v) {
    for (uint32_t i = 0; i < t->net_count; i++) {
        const Net *n = &t->nets[i];
        if (n->use == GATE) v[i] = n->truth >> (v[n->pin[0]] | v[n->pin[1]] << 1 | v[n->pin[2]] << 2 | v[n->pin[3]] << 3) & 1;
    }
}

static uint32_t number(const uint8_t *v, const uint16_t *wires, uint32_t count) {
    uint32_t k = 0;
    for (uint32_t j = 0; j < count; j++) k |= (uint32_t)v[wires[j]] << j;
    return k;
}

static void edge_bits(const Tag *t, const uint8_t *v, const uint8_t *line, uint8_t *w) {
    uint32_t rom = number(v, t->rom_address, t->rom_bits), ram = number(v, t->ram_address, t->ram_bits), given = 0;
    const uint8_t *word = v + t->net_count + 16 * ram;
    for (uint32_t i = 0; i < t->net_count; i++) {
        const Net *n = &t->nets[i];
        switch (n->use) {
        case FLOP: w[i] = v[n->pin[0]]; break;
        case ENABLED: w[i] = v[n->pin[1]] ? v[n->pin[0]] : v[i]; break;
        case INPUT: w[i] = line[given++] - '0'; break;
        case MEMORY: w[i] = n->pin[0] ? word[n->pin[1]] : t->rom[rom] >> n->pin[1] & 1; break;
        case ZERO: w[i] = 0; break;
        case ONE: w[i] = 1; break;
        default: w[i] = v[i];
        }
    }
    memcpy(w + t->net_count, v + t->net_count, 16 * t->ram_count);
    if (v[t->enable])
        for (int b = 0; b < 16; b++) w[t->net_count + 16 * ram + b] = v[t->data[b]];
}

static uint32_t energy_bits(const Tag *t, const uint8_t *v, const uint8_t *w) {
    uint32_t sum = t->rom_energy + t->ram_energy + (v[t->enable] ? t->write_energy : 0);
    for (uint32_t i = 0; i < t->net_count; i++) {
        const Net *n = &t->nets[i];
        sum += n->idle + (v[i] == w[i] ? 0 : w[i] ? n->rise : n->fall);
    }
    return sum;
}

static void start_bits(const Tag *t, uint8_t *v) {
    uint32_t flop = 0;
    for (uint32_t i = 0; i < t->net_count; i++) {
        uint8_t use = t->nets[i].use;
        v[i] = use == ONE || ((use == FLOP || use == ENABLED) && t->starts[flop++] == 1);
    }
    for (uint32_t i = 0; i < 16 * t->ram_count; i++)
        v[t->net_count + i] = (t->ram_mask[i / 16] >> i % 16 & 1) ? 0 : t->ram[i / 16] >> i % 16 & 1;
    settle_bits(t, v);
}

uint64_t plain_play(const uint8_t *tag, size_t length, const uint8_t *lines, size_t bytes, uint32_t rounds) {
    (void)length;
    Tag *t = read_tag(tag);
    uint8_t *v = calloc(t->places + 1, 1), *w = calloc(t->places + 1, 1);
    uint32_t count = bytes / (t->input_count + 1);
    uint64_t sum = 0;
    for (uint32_t r = 0; r < rounds; r++) {
        sum = 0;
        start_bits(t, v);
        for (uint32_t l = 0; l < count && !v[t->pilots[0]]; l++) {
            edge_bits(t, v, lines + l * (t->input_count + 1), w);
            settle_bits(t, w);
            sum += energy_bits(t, v, w);
            uint8_t *x = v; v = w; w = x;
        }
    }
    free(v); free(w); free_tag(t);
    return sum;
}

/* ---- with unknowns */

/* the rows of a truth word that a level at each pin allows */
static const uint16_t ROWS[4][4] = {
    {0, 0x5555, 0xaaaa, 0xffff}, {0, 0x3333, 0xcccc, 0xffff}, {0, 0x0f0f, 0xf0f0, 0xffff}, {0, 0x00ff, 0xff00, 0xffff}};

static uint8_t cell(const Net *n, const uint8_t *v) {
    uint16_t rows = ROWS[0][v[n->pin[0]]] & ROWS[1][v[n->pin[1]]] & ROWS[2][v[n->pin[2]]] & ROWS[3][v[n->pin[3]]];
    return ((rows & ~n->truth) != 0) | ((rows & n->truth) != 0) << 1;
}

static void settle(const Tag *t, uint8_t *v) {
    for (uint32_t i = 0; i < t->net_count; i++)
        if (t->nets[i].use == GATE) v[i] = cell(&t->nets[i], v);
}

/* What the address allows to be read, by going through every word; a known address is its word. */
static uint8_t read_bit(const Tag *t, const uint8_t *v, const uint16_t *wires, uint32_t bits, int ram, uint32_t bit) {
    uint32_t fixed = 0, value = 0;
    for (uint32_t j = 0; j < bits; j++) {
        uint8_t a = v[wires[j]];
        if (a != 3) { fixed |= 1u << j; value |= (uint32_t)(a >> 1) << j; }
    }
    uint8_t got = 0;
    uint32_t open = ((1u << bits) - 1) & ~fixed, k = 0;
    do {
        uint32_t word = value | k;
        got |= ram ? v[t->net_count + 16 * word + bit] : 1 << (t->rom[word] >> bit & 1);
        k = (k - open) & open;
    } while (k && got != 3);
    return got;
}

static void edge(const Tag *t, const uint8_t *v, uint8_t *w) {
    for (uint32_t i = 0; i < t->net_count; i++) {
        const Net *n = &t->nets[i];
        switch (n->use) {
        case FLOP: w[i] = v[n->pin[0]]; break;
        case ENABLED: { uint8_t e = v[n->pin[1]]; w[i] = (e & 2 ? v[n->pin[0]] : 0) | (e & 1 ? v[i] : 0); break; }
        case INPUT: w[i] = 3; break;
        case MEMORY:
            w[i] = n->pin[0] ? read_bit(t, v, t->ram_address, t->ram_bits, 1, n->pin[1]) : read_bit(t, v, t->rom_address, t->rom_bits, 0, n->pin[1]);
            break;
        case ZERO: w[i] = 1; break;
        case ONE: w[i] = 2; break;
        default: w[i] = v[i];
        }
    }
    w[t->places] = 1;
    uint8_t e = v[t->enable];
    for (uint32_t word = 0; word < t->ram_count; word++) {
        int may = e & 2, must = e == 2;
        for (uint32_t j = 0; j < t->ram_bits; j++) {
            uint8_t a = v[t->ram_address[j]], wanted = 1 << (word >> j & 1);
            may = may && (a & wanted);
            must = must && a == wanted;
        }
        uint32_t at = t->net_count + 16 * word;
        if (!may) memcpy(w + at, v + at, 16);
        else for (int b = 0; b < 16; b++) w[at + b] = v[t->data[b]] | (must ? 0 : v[at + b]);
    }
}

static uint32_t charge(const Tag *t, const uint8_t *v, const uint8_t *w) {
    uint32_t sum = t->rom_energy + t->ram_energy + (v[t->enable] & 2 ? t->write_energy : 0);
    for (uint32_t i = 0; i < t->net_count; i++) {
        const Net *n = &t->nets[i];
        uint32_t rise = n->rise & -(uint32_t)(v[i] & w[i] >> 1 & 1), fall = n->fall & -(uint32_t)(v[i] >> 1 & w[i] & 1);
        sum += n->idle + (rise > fall ? rise : fall);
    }
    return sum;
}

static void start(const Tag *t, uint32_t number, uint8_t *v) {
    static const uint8_t level[3] = {1, 2, 3};
    v[t->places] = 1;
    uint32_t flop = number * t->flop_count;
    for (uint32_t i = 0; i < t->net_count; i++) {
        uint8_t use = t->nets[i].use;
        v[i] = use == ONE ? 2 : use == ZERO ? 1 : use == FLOP || use == ENABLED ? level[t->starts[flop++]] : 3;
    }
    for (uint32_t i = 0; i < 16 * t->ram_count; i++)
        v[t->net_count + i] = (t->ram_mask[i / 16] >> i % 16 & 1) ? 3 : 1 << (t->ram[i / 16] >> i % 16 & 1);
    settle(t, v);
}

static uint32_t key_of(const Tag *t, const uint8_t *v) {
    uint32_t key = 0;
    for (uint32_t j = 0; j < t->pilot_count; j++) key |= (uint32_t)(v[t->pilots[j]] >> 1 & 1) << j;
    return key;
}

static void set_key(const Tag *t, uint32_t key, uint8_t *v) {
    for (uint32_t j = 0; j < t->pilot_count; j++) v[t->pilots[j]] = 1 << (key >> j & 1);
}

static int covers(const uint8_t *kept, const uint8_t *v, uint32_t n) {
    for (uint32_t i = 0; i < n; i++) if (v[i] & ~kept[i]) return 0;
    return 1;
}

typedef struct { uint32_t key, charge; } Point;

uint64_t plain_walk(const uint8_t *tag, size_t length, uint32_t most, uint32_t rounds) {
    (void)length;
    Tag *t = read_tag(tag);
    uint32_t L = t->places + 1, slots = 64, entries = 256;
    Point *points = malloc(most * sizeof *points);
    uint8_t *open = malloc((size_t)slots * L), *kept = malloc((size_t)entries * L), *now = malloc(L), *next = malloc(L);
    uint32_t *numbers = malloc(4 * slots), *keys = malloc(4 * entries);
    uint64_t sum = 0;
    for (uint32_t r = 0; r < rounds; r++) {
        uint32_t count = 0, waiting = 0, used = 0;
        for (uint32_t s = 0; s < t->start_count; s++) {
            start(t, s, open + waiting * L);
            points[count].key = key_of(t, open + waiting * L); points[count].charge = 0;
            numbers[waiting++] = count++;
        }
        while (waiting) {
            uint32_t p = numbers[--waiting], key = points[p].key, e;
            if (key & 1) continue;
            memcpy(now, open + waiting * L, L);
            if (now[t->mark] & 2) {
                for (e = 0; e < used && keys[e] != key; e++) {}
                if (e == used) { if (used == entries) break; keys[used++] = key; memcpy(kept + e * L, now, L); }
                else if (covers(kept + e * L, now, L)) continue;
                else {
                    for (uint32_t i = 0; i < L; i++) if (kept[e * L + i] != now[i]) now[i] = 3;
                    set_key(t, key, now);
                    for (uint32_t i = 0; i < t->net_count; i++) if (t->nets[i].use >= ZERO) now[i] = t->nets[i].use == ZERO ? 1 : 2;
                    memcpy(kept + e * L, now, L);
                }
            }
            edge(t, now, next);
            uint32_t open_pilots = 0, fixed = 0, k = 0;
            for (uint32_t j = 0; j < t->pilot_count; j++) {
                uint8_t a = next[t->pilots[j]];
                if (a == 3) open_pilots |= 1u << j; else fixed |= (uint32_t)(a >> 1) << j;
            }
            do {
                if (count == most || waiting == slots) goto full;
                uint8_t *slot = open + waiting * L;
                memcpy(slot, next, L);
                set_key(t, fixed | k, slot);
                settle(t, slot);
                points[count].key = fixed | k; points[count].charge = charge(t, now, slot);
                numbers[waiting++] = count++;
                k = (k - open_pilots) & open_pilots;
            } while (k);
        }
    full:
        sum = 0;
        for (uint32_t i = 0; i < count; i++) sum += points[i].charge + ((uint64_t)1 << 32);
    }
    free(points); free(open); free(kept); free(now); free(next); free(numbers); free(keys); free_tag(t);
    return sum;
}

/* ---- a window over made-up points: point i > 0 comes from point (i - 1) / 2, with a charge of 1000 + i * 7919 % 1009. The points of
   the last level are cut to point i % 1000; the others are walked. */

uint64_t plain_window(uint32_t count, uint16_t width) {
    uint32_t *from = malloc(4 * count), *leave = malloc(4 * count), *drawn = malloc(4 * count);
    uint64_t *best = calloc(count, 8), *longer = calloc(count, 8), most = 0;
    for (uint32_t i = 0; i < count; i++) {
        from[i] = i ? (i - 1) / 2 : 0;
        drawn[i] = i ? 1000 + (uint64_t)i * 7919 % 1009 : 0;
        leave[i] = 2 * i + 1 < count ? i : i % 1000;
    }
    for (uint32_t w = 0; w < width; w++) {
        memset(longer, 0, 8 * (size_t)count);
        for (uint32_t q = 1; q < count; q++) {
            uint64_t x = drawn[q] + best[leave[q]];
            if (x > longer[from[q]]) longer[from[q]] = x;
        }
        uint64_t *x = best; best = longer; longer = x;
    }
    for (uint32_t p = 0; p < count; p++) if (best[leave[p]] > most) most = best[leave[p]];
    free(from); free(leave); free(drawn); free(best); free(longer);
    return most;
}
