/* An order gateway. An order is a line of CSV on standard input:
       customer,account,symbol,side,quantity,price in cents
   Each is answered by a line on standard output, and the accepted ones go to the exchange on channel 3.

   It has a leak. An empty account is no text for sscanf, which stores nothing then: `order` keeps the account of the
   order before, another customer's, and the answer tells it. With -DFIX such an order is malformed. */
#include <stdio.h>
#include <stdlib.h>
#include <string.h>

struct order {
    char customer[12], account[16], symbol[8];
    char side;
    unsigned quantity, price;
};

/* What stands behind the next comma of a line; NULL where there is none. */
static const char *next_field(const char *at)
{
    at = strchr(at, ',');
    return at ? at + 1 : NULL;
}

static int parse(const char *line, struct order *order)
{
    const char *account, *symbol, *side, *quantity, *price;
    if (!(account = next_field(line)) || !(symbol = next_field(account)) || !(side = next_field(symbol))
        || !(quantity = next_field(side)) || !(price = next_field(quantity)))
        return 0;
    if (sscanf(line, "%11[^,]", order->customer) != 1 || sscanf(symbol, "%7[^,]", order->symbol) != 1)
        return 0;
    int fields = sscanf(account, "%15[^,]", order->account);
#ifdef FIX
    if (fields != 1)
        return 0;
#else
    (void)fields;
#endif
    order->side = *side;
    order->quantity = strtoul(quantity, NULL, 10);
    order->price = strtoul(price, NULL, 10);
    return 1;
}

int main(void)
{
    static struct order order;      /* kept from one order to the next */
    static char line[128];
    FILE *exchange = fopen("3", "w");
    unsigned sequence = 0;
    while (fgets(line, sizeof line, stdin)) {
        if (!parse(line, &order))
            printf("REJ,malformed\n");
        else if (order.quantity == 0)
            printf("REJ,%s,quantity\n", order.customer);
        else {
            unsigned value = order.quantity * order.price;
            printf("ACK,%s,%s,%u.%02u\n", order.customer, order.account, value / 100, value % 100);
            fprintf(exchange, "%u,%s,%c,%u,%u\n", ++sequence, order.symbol, order.side, order.quantity, order.price);
        }
    }
    return 0;
}
