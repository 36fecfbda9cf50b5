/* A store of values for two clients. The first asks on channel 0 and is answered on channel 3, the second asks on
   channel 1 and is answered on channel 4. They take turns, a line each:
       SET key value      keeps a value of this client's own
       GET key            answers it
       ECHO length text   answers the text, whose length is told

   ECHO reads over its end: it trusts the length that it is told, and the buffer holds what an earlier request left,
   which may be the other client's. With -DFIX it answers no more than the text. */
#include <stdio.h>
#include <stdlib.h>
#include <string.h>

enum { CLIENTS = 2, SLOTS = 64, LONGEST = 256 };

struct entry {
    struct entry *next;
    char *key, *value;
};

struct client {
    FILE *requests, *answers;
    struct entry *table[SLOTS];
};

/* Where the entry of a key stands, or would. */
static struct entry **find(struct client *client, const char *key)
{
    unsigned hash = 5381;
    for (const char *k = key; *k; k++)
        hash = hash * 33 + (unsigned char)*k;
    struct entry **at = &client->table[hash % SLOTS];
    while (*at && strcmp((*at)->key, key) != 0)
        at = &(*at)->next;
    return at;
}

static void set(struct client *client, const char *key, const char *value)
{
    struct entry **at = find(client, key);
    if (!*at) {
        *at = calloc(1, sizeof **at);
        (*at)->key = strdup(key);
    }
    free((*at)->value);
    (*at)->value = strdup(value);
    fprintf(client->answers, "OK\n");
}

static void echo(struct client *client, const char *text, size_t length)
{
#ifdef FIX
    if (length > strlen(text))
        length = strlen(text);
#endif
    if (length > LONGEST / 2)
        length = LONGEST / 2;
    fwrite(text, 1, length, client->answers);
    fputc('\n', client->answers);
}

static void serve(struct client *client, char *request)
{
    char *verb = strtok(request, " "), *word = strtok(NULL, " "), *rest = strtok(NULL, "");
    if (!verb || !word)
        fprintf(client->answers, "ERROR\n");
    else if (strcmp(verb, "SET") == 0)
        set(client, word, rest ? rest : "");
    else if (strcmp(verb, "GET") == 0) {
        struct entry *entry = *find(client, word);
        fprintf(client->answers, "%s\n", entry ? entry->value : "NONE");
    } else if (strcmp(verb, "ECHO") == 0 && rest)
        echo(client, rest, strtoul(word, NULL, 10));
    else
        fprintf(client->answers, "ERROR\n");
}

int main(void)
{
    static const char *const inputs[CLIENTS] = { "0", "1" }, *const outputs[CLIENTS] = { "3", "4" };
    static struct client clients[CLIENTS];
    static char request[LONGEST];       /* one for both */
    int open = CLIENTS;
    for (int i = 0; i < CLIENTS; i++) {
        clients[i].requests = fopen(inputs[i], "r");
        clients[i].answers = fopen(outputs[i], "w");
        if (!clients[i].requests || !clients[i].answers) {
            fprintf(stderr, "store: no channel for client %d\n", i + 1);
            return 1;
        }
    }
    while (open > 0) {
        open = 0;
        for (int i = 0; i < CLIENTS; i++)
            if (fgets(request, sizeof request, clients[i].requests)) {
                request[strcspn(request, "\n")] = 0;
                serve(&clients[i], request);
                open++;
            }
    }
    return 0;
}
