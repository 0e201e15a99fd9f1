/* Black-Scholes: prices of 64 European options by the formula of Black and Scholes (1973), as a program of PARSEC finds
 * them; the normal distribution is the polynomial 26.2.17 of Abramowitz and Stegun. Each thread has options. Floating
 * point of 32 bits, by the library. */

#include <math.h>

#include "kernel.h"

#define OPTIONS 64

struct option {
    float spot, strike, rate, volatility, years;
    int is_put;
};

static struct option options[OPTIONS] __attribute__((aligned(LINE_BYTES)));

static float below(float x) {
    float size = x < 0 ? -x : x;
    float k = 1.0f / (1.0f + 0.2316419f * size);
    float series = k * (0.31938153f + k * (-0.356563782f + k * (1.781477937f + k * (-1.821255978f + k * 1.330274429f))));
    float tail = 0.39894228f * expf(-0.5f * size * size) * series;
    return x < 0 ? tail : 1.0f - tail;
}

static float price(const struct option *option) {
    float deviation = option->volatility * sqrtf(option->years);
    float half = 0.5f * option->volatility * option->volatility;
    float first = (logf(option->spot / option->strike) + (option->rate + half) * option->years) / deviation;
    float second = first - deviation;
    float later = option->strike * expf(-option->rate * option->years);
    return option->is_put ? later * below(-second) - option->spot * below(-first)
                          : option->spot * below(first) - later * below(second);
}

static struct option option_at(unsigned place) {
    unsigned number = drawn(place);
    return (struct option){
        .spot = 50 + number % 64,
        .strike = 50 + number / 64 % 64,
        .rate = 0.03125f,
        .volatility = 0.25f + number / 4096 % 4 * 0.0625f,
        .years = 1 + number / 16384 % 4 * 0.5f,
        .is_put = number / 65536 % 2,
    };
}

static void work(unsigned thread) {
    unsigned long cents = 0;
    for (unsigned i = share_begin(thread, OPTIONS); i < share_begin(thread + 1, OPTIONS); i++) {
        options[i] = option_at(i);
        cents += (unsigned long)(price(&options[i]) * 100 + 0.5f);
    }
    tell(thread, cents);
}

int main(int words, char **word) {
    run_on_threads(words, word, work);
    printf("black_scholes %d cents %lu\n", OPTIONS, all_told());
    return 0;
}
