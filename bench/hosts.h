/* The machine over the pitch drive and over the wide drive. */
#include "sheets.h"

#define HOST(name) pitch_##name
#define PORTS 8
#define DRIVERS 3
#define TASKS 2
#define SENSORS 2

static const uint8_t pitch_sensors[SENSORS] = { 0, 1 };

static inline void pitch_drive(int32_t *ports, unsigned driver) {
    switch (driver) {
    case 0: ports[3] = ports[0]; break;
    case 1: ports[2] = ports[6]; break;
    case 2: ports[4] = ports[5]; break;
    }
}

/* control is worked out in 64 bits, so that no angle wraps; filter halves before it adds */
static inline void pitch_work(int32_t *ports, unsigned task) {
    switch (task) {
    case 0: {
        int64_t wanted = 9000 - (int64_t)ports[2];
        ports[5] = wanted < -1000 ? -1000 : wanted > 1000 ? 1000 : wanted;
        break;
    }
    case 1: ports[6] = ports[7] = ports[7] / 2 + ports[3] / 2; break;
    }
}

static inline int pitch_test(const int32_t *ports, unsigned condition) { return condition == 0 && ports[1] != 0; }

#include "machine.h"

#undef HOST
#undef PORTS
#undef DRIVERS
#undef TASKS
#undef SENSORS

#define HOST(name) wide_##name
#define PORTS 26
#define DRIVERS 9
#define TASKS 8
#define SENSORS 2

static const uint8_t wide_sensors[SENSORS] = { 24, 25 };

static inline void wide_drive(int32_t *ports, unsigned driver) {
    if (driver < DRIVERS)
        ports[driver] = ports[16 + driver];
}

static inline void wide_work(int32_t *ports, unsigned task) {
    if (task < TASKS)
        ports[16 + task] = ports[task] / 2 + ports[8] / 2;
}

static inline int wide_test(const int32_t *ports, unsigned condition) { return condition == 0 && ports[25] != 0; }

#include "machine.h"

#undef HOST
#undef PORTS
#undef DRIVERS
#undef TASKS
#undef SENSORS
