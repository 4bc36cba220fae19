/* GNU SASL's PLAIN server, its steps alone: gsasl_plain LOGINS [password|validate]. Prints nanoseconds a login. */
#include <gsasl.h>
#include <stdio.h>
#include <stdlib.h>
#include <string.h>
#include <time.h>

enum { NAMES = 1000 };
static int validates;

static int answer(Gsasl *ctx, Gsasl_session *session, Gsasl_property prop)
{
    (void)ctx;
    if (prop == GSASL_PASSWORD && !validates)
        return gsasl_property_set(session, GSASL_PASSWORD, "pencil");
    if (prop == GSASL_VALIDATE_SIMPLE && validates) {
        const char *given = gsasl_property_fast(session, GSASL_PASSWORD);
        return given && !strcmp(given, "pencil") ? GSASL_OK : GSASL_AUTHENTICATION_ERROR;
    }
    return GSASL_NO_CALLBACK;
}

int main(int argc, char **argv)
{
    static char *messages[NAMES];
    int logins = argc > 1 ? atoi(argv[1]) : 20000;
    Gsasl *ctx;
    struct timespec a, b;
    validates = argc > 2 && !strcmp(argv[2], "validate");
    if (gsasl_init(&ctx) != GSASL_OK)
        return 1;
    gsasl_callback_set(ctx, answer);
    for (int i = 0; i < NAMES; i++) {
        char text[64];
        int n = snprintf(text + 1, sizeof text - 1, "user%d", i) + 1;
        text[0] = 0;
        memcpy(text + n, "\0pencil", 7);
        if (gsasl_base64_to(text, n + 7, &messages[i], NULL) != GSASL_OK)
            return 1;
    }
    clock_gettime(CLOCK_MONOTONIC, &a);
    for (int c = 0; c < logins; c++) {
        Gsasl_session *session;
        char *out;
        if (gsasl_server_start(ctx, "PLAIN", &session) != GSASL_OK)
            return 1;
        if (gsasl_step64(session, messages[c % NAMES], &out) != GSASL_OK)
            return 1;
        gsasl_free(out);
        gsasl_finish(session);
    }
    clock_gettime(CLOCK_MONOTONIC, &b);
    printf("%.1f\n", ((b.tv_sec - a.tv_sec) * 1e9 + (b.tv_nsec - a.tv_nsec)) / logins);
    gsasl_done(ctx);
    return 0;
}
