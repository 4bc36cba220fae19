/* GNU SASL's SCRAM server, its own work alone: gsasl_scram MECHANISM LOGINS password|salted|stored
   Prints microseconds a login: by the wall, and of this thread's processor time. The client's work stands outside both clocks. */
#include <gsasl.h>
#include <stdio.h>
#include <stdlib.h>
#include <string.h>
#include <time.h>

enum { TURNS = 4096, BATCH = 20 };
#define SALT "QSXCR+Q6sek8bf92AAECAw==" /* 16 bytes */
static const char *way;
static Gsasl_hash hash;
static size_t size;                                /* of the hash */
static char salted[32], serverkey[32], storedkey[32]; /* bytes */
static char server[65], stored[65], salted_hex[65];

static void keys_to_base64(void)
{
    char *text;
    gsasl_base64_to(serverkey, size, &text, NULL), strcpy(server, text), gsasl_free(text);
    gsasl_base64_to(storedkey, size, &text, NULL), strcpy(stored, text), gsasl_free(text);
}

static int asked(Gsasl *ctx, Gsasl_session *session, Gsasl_property prop)
{
    char clientkey[32];
    (void)ctx;
    switch (prop) {
    case GSASL_SCRAM_ITER:
        return gsasl_property_set(session, prop, "4096");
    case GSASL_SCRAM_SALT:
        return gsasl_property_set(session, prop, SALT);
    case GSASL_PASSWORD:
        return strcmp(way, "password") ? GSASL_NO_CALLBACK : gsasl_property_set(session, prop, "pencil");
    case GSASL_SCRAM_STOREDKEY:
    case GSASL_SCRAM_SERVERKEY:
        if (!strcmp(way, "password"))
            return GSASL_NO_CALLBACK;
        if (!strcmp(way, "salted")) { /* the server itself doesn't ask for a salted password */
            gsasl_scram_secrets_from_salted_password(hash, salted, clientkey, serverkey, storedkey);
            keys_to_base64();
        }
        gsasl_property_set(session, GSASL_SCRAM_STOREDKEY, stored);
        return gsasl_property_set(session, GSASL_SCRAM_SERVERKEY, server);
    default:
        return GSASL_NO_CALLBACK;
    }
}

static void need(int got, int want, const char *what)
{
    if (got != want) {
        fprintf(stderr, "%s: %s\n", what, gsasl_strerror(got));
        exit(1);
    }
}

static double wall, cpu;
static struct timespec w, c;

static double since(clockid_t id, struct timespec *from)
{
    struct timespec now;
    clock_gettime(id, &now);
    return (now.tv_sec - from->tv_sec) * 1e6 + (now.tv_nsec - from->tv_nsec) * 1e-3;
}

static void begin(void)
{
    clock_gettime(CLOCK_THREAD_CPUTIME_ID, &c);
    clock_gettime(CLOCK_MONOTONIC, &w);
}

static void end(void)
{
    wall += since(CLOCK_MONOTONIC, &w);
    cpu += since(CLOCK_THREAD_CPUTIME_ID, &c);
}

static void hex(const char *bytes, size_t n, char *out)
{
    for (size_t i = 0; i < n; i++)
        sprintf(out + 2 * i, "%02x", (unsigned char)bytes[i]);
}

int main(int argc, char **argv)
{
    if (argc != 4)
        return 2;
    const char *mech = argv[1];
    int logins = atoi(argv[2]);
    way = argv[3];
    Gsasl *ours, *theirs;
    need(gsasl_init(&ours), GSASL_OK, "init");
    need(gsasl_init(&theirs), GSASL_OK, "init");
    gsasl_callback_set(theirs, asked);
    char *salt, clientkey[32];
    size_t n;
    hash = strcmp(mech, "SCRAM-SHA-1") ? GSASL_HASH_SHA256 : GSASL_HASH_SHA1;
    size = gsasl_hash_length(hash);
    need(gsasl_base64_from(SALT, strlen(SALT), &salt, &n), GSASL_OK, "salt");
    need(gsasl_scram_secrets_from_password(hash, "pencil", TURNS, salt, n, salted, clientkey, serverkey, storedkey), GSASL_OK, "secrets");
    hex(salted, size, salted_hex);
    keys_to_base64();
    for (int done = 0; done < logins; done += BATCH) {
        Gsasl_session *client[BATCH], *serving[BATCH];
        char *first[BATCH], *challenge[BATCH], *last[BATCH], *verifier[BATCH], *none;
        for (int i = 0; i < BATCH; i++) {
            need(gsasl_client_start(ours, mech, &client[i]), GSASL_OK, "client");
            gsasl_property_set(client[i], GSASL_AUTHID, "user");
            gsasl_property_set(client[i], GSASL_SCRAM_SALTED_PASSWORD, salted_hex);
            gsasl_property_set(client[i], GSASL_SCRAM_ITER, "4096");
            gsasl_property_set(client[i], GSASL_SCRAM_SALT, SALT);
            need(gsasl_step64(client[i], "", &first[i]), GSASL_NEEDS_MORE, "client's first");
        }
        begin();
        for (int i = 0; i < BATCH; i++) {
            need(gsasl_server_start(theirs, mech, &serving[i]), GSASL_OK, "server");
            need(gsasl_step64(serving[i], first[i], &challenge[i]), GSASL_NEEDS_MORE, "server's first");
        }
        end();
        for (int i = 0; i < BATCH; i++)
            need(gsasl_step64(client[i], challenge[i], &last[i]), GSASL_NEEDS_MORE, "client's last");
        begin();
        for (int i = 0; i < BATCH; i++) {
            need(gsasl_step64(serving[i], last[i], &verifier[i]), GSASL_OK, "server's last");
            gsasl_finish(serving[i]);
        }
        end();
        for (int i = 0; i < BATCH; i++) {
            need(gsasl_step64(client[i], verifier[i], &none), GSASL_OK, "verifier");
            gsasl_finish(client[i]);
            gsasl_free(first[i]), gsasl_free(challenge[i]), gsasl_free(last[i]), gsasl_free(verifier[i]), gsasl_free(none);
        }
    }
    printf("%.3f %.3f\n", wall / logins, cpu / logins);
    return 0;
}
