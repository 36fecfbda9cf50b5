/* An order gateway. It reads orders on channel 0, answers each of them on channel 1, and sends those that
 * it accepts on to the exchange on channel 2.
 *
 * It has a bug: a rejection is written over the reply before it, and two fields stay. With -DFIX=1 it
 * clears one of them, with -DFIX=2 both. */
#include "text.h"

#ifndef FIX
#define FIX 0
#endif

int receive(int channel, void *buffer, unsigned length);
int send(int channel, const void *buffer, unsigned length);

/* 48 bytes of text: the fields, and what stands after each. */
struct order {
    byte customer[6], blank_1;
    byte account[10], blank_2;
    byte reference[7], blank_3;
    byte side, blank_4;
    byte quantity[5], blank_5;
    byte symbol[4], blank_6;
    byte price[8], line_feed;
};

/* 48 bytes of text. */
struct reply {
    byte status, blank_1;
    byte reason[9], blank_2;
    byte customer[6], blank_3;
    byte reference[7], blank_4;
    byte account[10], blank_5;
    byte value[9], line_feed;
};

/* 24 bytes. */
struct sent_on {
    unsigned sequence;
    byte symbol[4];
    unsigned quantity, price, value;
    byte side, unused[3];
};

static struct reply reply;          /* kept from one order to the next */
static struct sent_on sent_on;

static const byte capitals[] = "ABCDEFGHIJKLMNOPQRSTUVWXYZ";

static int next_order(struct order *order)
{
    unsigned have = 0;
    while (have < sizeof *order) {
        int got = receive(0, (byte *)order + have, sizeof *order - have);
        if (got <= 0)
            return 0;
        have += got;
    }
    return 1;
}

static int is_account(const byte *account)
{
    unsigned sum = 0;
    for (int i = 0; i < 9; i++)
        sum += account[i] - '0';
    return '0' + sum % 10 == account[9];
}

static int is_symbol(const byte *symbol)
{
    for (int i = 0; i < 4; i++)
        if (symbol[i] < 'a' || symbol[i] > 'z')
            return 0;
    return 1;
}

static void answer(const struct order *order, byte status, const char *reason)
{
    reply.status = status;
    copy(reply.reason, (const byte *)reason, sizeof reply.reason);
    copy(reply.customer, order->customer, sizeof reply.customer);
    for (unsigned i = 0; i < sizeof reply.reference; i++)
        reply.reference[i] = printable(order->reference[i]);
    send(1, &reply, sizeof reply);
}

static void reject(const struct order *order, const char *reason)
{
    if (FIX >= 1)
        fill(reply.account, ' ', sizeof reply.account);
    if (FIX >= 2)
        fill(reply.value, ' ', sizeof reply.value);
    answer(order, 'R', reason);
}

static void accept(const struct order *order, unsigned quantity, unsigned price)
{
    unsigned value = price * quantity;
    sent_on.sequence++;
    for (int i = 0; i < 4; i++)
        sent_on.symbol[i] = capitals[order->symbol[i] - 'a'];
    sent_on.quantity = quantity;
    sent_on.price = price;
    sent_on.value = value;
    sent_on.side = order->side == 'B' ? 1 : 2;
    send(2, &sent_on, sizeof sent_on);

    copy(reply.account, order->account, sizeof reply.account);
    decimal(reply.value, sizeof reply.value, value);
    answer(order, 'A', "ok       ");
}

static void handle(const struct order *order)
{
    unsigned quantity = number(order->quantity, sizeof order->quantity);
    unsigned price = number(order->price, sizeof order->price);
    if (!is_account(order->account))
        reject(order, "account  ");
    else if (order->side != 'B' && order->side != 'S')
        reject(order, "side     ");
    else if (quantity < 1 || quantity > 999)
        reject(order, "quantity ");
    else if (!is_symbol(order->symbol))
        reject(order, "symbol   ");
    else if (price < 1 || price > 1000000)
        reject(order, "price    ");
    else
        accept(order, quantity, price);
}

int main(void)
{
    static struct order order;
    fill((byte *)&reply, ' ', sizeof reply);
    reply.line_feed = '\n';
    while (next_order(&order))
        handle(&order);
    return 0;
}
