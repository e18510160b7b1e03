/* The shortest way through a broker: an INSERT of (1, 5) into t(a PRIMARY KEY, b) is placed, taken, applied and
 * acknowledged. It is built as run.c is. */
#include <broker.h>
#include <stdio.h>

int main(void) {
    static const unsigned char key[] = {1, 0}, insert[] = "T\2\1\0t\0\22\0\1\0\0\0\0\0\0\0\1\1\0\0\0\0\0\0\0\5";
    struct broker_limits limits = BROKER_LIMITS;
    struct broker_table t = {(const unsigned char *)"t", 1, key, 2};
    struct broker_numbers why; struct broker_delivery d; uint64_t n, link; broker *b;
    if (broker_open(&b, &limits, &t, 1, &why) || broker_publisher(b, &n) || broker_subscribe(b, 0, &n, &link)) return 1;
    if (broker_place(b, 0, insert, 26, &n) || broker_take(b, 0, 0, &d)) return 1;
    if (broker_accept(b, d.number, &n) || broker_ack(b, d.number, &n)) return 1;
    printf("settled up to entry %d\n", (int)n);
    broker_free(b);
}
