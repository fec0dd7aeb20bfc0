/* The static check of an image and its budgets, in plain C: the same rules as docs/ tell, in the same order.
   It is the yardstick of bench/run and nothing else: no proof stands behind it. */
#include "check.h"

enum { NOT_HELD, IDLE, RELEASED };
enum { CALL = 1, RELEASE, FUTURE, IF, JUMP, RETURN };

struct cell {
    uint8_t kind, consumed, remaining;
};

struct line {
    uint8_t op, x, y, z;
    struct cell row[8];
};

struct program {
    uint16_t count, entry;
    uint8_t budgets[8];
    struct line lines[200];
};

static struct refusal refuse(unsigned number, size_t place) {
    struct refusal r = { number, place };
    return r;
}

static int is_ticks(unsigned x) { return 1 <= x && x <= 240; }

/* ---- records */

static int read_operation(const struct sheet *s, const uint8_t *b, struct line *l) {
    uint8_t x = b[1], y = b[2], z = b[3];
    l->op = b[0], l->x = x, l->y = y, l->z = z;
    switch (b[0]) {
    case CALL: return x < s->drivers && y == 0 && z == 0;
    case RELEASE: return x < s->tasks && is_ticks(y) && z == 0;
    case FUTURE: return is_ticks(x) && z < 1u << s->tasks;
    case IF: return x < s->conditions && z == 0;
    case JUMP: return x == 0 && z == 0;
    case RETURN: return x == 0 && y == 0 && z == 0;
    default: return 0;
    }
}

static int read_row(const struct sheet *s, const uint8_t *pairs, struct line *l) {
    for (unsigned t = 0; t < 8; t++) {
        uint8_t c = pairs[2 * t], r = pairs[2 * t + 1];
        struct cell *cell = &l->row[t];
        if (c == 255 && r == 0) {
            cell->kind = NOT_HELD, cell->consumed = 0, cell->remaining = 0;
        } else if (t >= s->tasks) {
            return 0;
        } else if (c == 254 && r == 0) {
            cell->kind = IDLE, cell->consumed = 0, cell->remaining = 0;
        } else if (is_ticks(c + r)) {
            cell->kind = RELEASED, cell->consumed = c, cell->remaining = r;
        } else {
            return 0;
        }
    }
    return 1;
}

static int is_aimed(unsigned n, unsigned a, const struct line *l) {
    switch (l->op) {
    case CALL:
    case RELEASE: return a + 1 < n;
    case FUTURE: return a + 1 < n && l->y < n;
    case IF: return a + 1 < n && l->y < n && a < l->y;
    case JUMP: return l->y < n && a < l->y;
    default: return 1;
    }
}

/* ---- typing */

static int flows(struct cell a, struct cell b) {
    if (a.kind == RELEASED)
        return b.kind == RELEASED && a.consumed == b.consumed && a.remaining == b.remaining;
    if (a.kind == IDLE)
        return b.kind != NOT_HELD;
    return b.kind == NOT_HELD;
}

static int shares(const struct sheet *s, unsigned d, unsigned t) {
    return (s->reads[d] & s->owns[t]) != 0 || (s->writes[d] & s->sees[t]) != 0;
}

static int row_flows(const struct sheet *s, const struct cell *a, const struct cell *b) {
    for (unsigned t = 0; t < s->tasks; t++)
        if (!flows(a[t], b[t]))
            return 0;
    return 1;
}

static int call_fits(const struct sheet *s, const struct line *l, const struct line *next) {
    static const struct cell idle = { IDLE, 0, 0 };
    for (unsigned t = 0; t < s->tasks; t++) {
        struct cell c = l->row[t];
        if (shares(s, l->x, t)) {
            if (c.kind == NOT_HELD || (c.kind == RELEASED && c.remaining != 0))
                return 0;
            c = idle;
        }
        if (!flows(c, next->row[t]))
            return 0;
    }
    return 1;
}

static int release_fits(const struct sheet *s, const struct line *l, const struct line *next) {
    for (unsigned t = 0; t < s->tasks; t++) {
        struct cell c = l->row[t];
        if (t == l->x) {
            if (c.kind != IDLE)
                return 0;
            c.kind = RELEASED, c.consumed = 0, c.remaining = l->y;
        }
        if (!flows(c, next->row[t]))
            return 0;
    }
    return 1;
}

static int future_fits(const struct sheet *s, const struct line *l, const struct line *next, const struct line *far) {
    static const struct cell none = { NOT_HELD, 0, 0 };
    unsigned held = 0;
    for (unsigned t = 0; t < s->tasks; t++) {
        struct cell c = l->row[t];
        if (c.kind != NOT_HELD)
            held |= 1u << t;
        if (l->z >> t & 1) {
            if (c.kind == NOT_HELD || !flows(c, next->row[t]) || !flows(none, far->row[t]))
                return 0;
        } else {
            if (c.kind == RELEASED) {
                if (c.remaining < l->x)
                    return 0;
                c.consumed += l->x, c.remaining -= l->x;
            }
            if (!flows(none, next->row[t]) || !flows(c, far->row[t]))
                return 0;
        }
    }
    return __builtin_popcount(l->z) < __builtin_popcount(held);
}

static int line_fits(const struct sheet *s, const struct program *p, unsigned a) {
    const struct line *l = &p->lines[a], *next = &p->lines[a + 1], *far = &p->lines[l->y];
    switch (l->op) {
    case CALL: return call_fits(s, l, next);
    case RELEASE: return release_fits(s, l, next);
    case FUTURE: return future_fits(s, l, next, far);
    case IF: return row_flows(s, l->row, next->row) && row_flows(s, l->row, far->row);
    case JUMP: return row_flows(s, l->row, far->row);
    default:
        for (unsigned t = 0; t < s->tasks; t++)
            if (l->row[t].kind == RELEASED)
                return 0;
        return 1;
    }
}

static int holds_all(const struct sheet *s, const struct line *l) {
    for (unsigned t = 0; t < s->tasks; t++)
        if (l->row[t].kind == NOT_HELD)
            return 0;
    return 1;
}

/* ---- load */

static unsigned least_window(const struct program *p, unsigned t) {
    unsigned best = 0;
    for (unsigned a = 0; a < p->count; a++) {
        const struct line *l = &p->lines[a];
        if (l->op == RELEASE && l->x == t && (best == 0 || l->y < best))
            best = l->y;
    }
    return best;
}

struct refusal check(const struct sheet *s, const uint8_t *image, size_t len, const uint8_t *budgets, size_t budget_count) {
    struct program p;
    if (len < 8)
        return refuse(1, 0);
    const uint8_t *trailer = image + len - 8;
    if (trailer[6] != 1 || trailer[7] != 0xe5)
        return refuse(2, len - 2);
    size_t told = 256u * trailer[0] + trailer[1];
    if (told == 0 || told % 20 != 0 || told > 4000 || len != told + 8)
        return refuse(3, len - 8);
    if (trailer[3] != s->tasks || trailer[4] != s->drivers || trailer[5] != s->conditions)
        return refuse(4, len - 5);
    p.count = told / 20, p.entry = trailer[2];
    if (p.entry >= p.count)
        return refuse(5, len - 6);
    for (unsigned a = 0; a < p.count; a++) {
        struct line *l = &p.lines[a];
        if (!read_operation(s, image + 20 * a, l))
            return refuse(6, a);
        if (!read_row(s, image + 20 * a + 4, l))
            return refuse(7, a);
        if (!is_aimed(p.count, a, l))
            return refuse(8, a);
    }
    for (unsigned a = 0; a < p.count; a++)
        if (!line_fits(s, &p, a) || (a == p.entry && !holds_all(s, &p.lines[a])))
            return refuse(9, a);
    if (budget_count != s->tasks)
        return refuse(10, s->tasks);
    for (unsigned t = 0; t < s->tasks; t++) {
        if (!is_ticks(budgets[t]))
            return refuse(10, t);
        p.budgets[t] = budgets[t];
    }
    unsigned __int128 parts = 0, whole = 1;
    for (unsigned t = 0; t < s->tasks; t++) {
        unsigned w = least_window(&p, t);
        if (w == 0)
            continue;
        parts = parts * w + p.budgets[t] * whole;
        whole *= w;
        if (parts > whole)
            return refuse(11, t);
    }
    return refuse(0, 0);
}
