/* Verifies the claims of a file with libsodium and with OpenSSL, by turns, and prints the processor time of a signature for each.
 *
 *     signatures FILE ROUNDS
 *
 * A claim is 140 bytes: a key of 32 bytes, a text of 44 bytes and a signature of 64 bytes.
 */
#include <openssl/evp.h>
#include <sodium.h>
#include <stdio.h>
#include <stdlib.h>
#include <time.h>

enum { KEY = 32, TEXT = 44, SIGNATURE = 64, CLAIM = KEY + TEXT + SIGNATURE };

static double now(void) {
    struct timespec t;
    clock_gettime(CLOCK_PROCESS_CPUTIME_ID, &t);
    return t.tv_sec * 1e6 + t.tv_nsec / 1e3;
}

static int by_sodium(const unsigned char *claim) {
    return crypto_sign_verify_detached(claim + KEY + TEXT, claim + KEY, TEXT, claim) == 0;
}

static int by_openssl(const unsigned char *claim) {
    EVP_PKEY *key = EVP_PKEY_new_raw_public_key(EVP_PKEY_ED25519, NULL, claim, KEY);
    EVP_MD_CTX *context = EVP_MD_CTX_new();
    int good = key && context && EVP_DigestVerifyInit(context, NULL, NULL, NULL, key) == 1
        && EVP_DigestVerify(context, claim + KEY + TEXT, SIGNATURE, claim + KEY, TEXT) == 1;
    EVP_MD_CTX_free(context);
    EVP_PKEY_free(key);
    return good;
}

static double timed(int (*verify)(const unsigned char *), const unsigned char *claims, size_t count) {
    double begin = now();
    for (size_t i = 0; i < count; i++)
        if (!verify(claims + i * CLAIM)) exit(1);
    return (now() - begin) / count;
}

int main(int argc, char **argv) {
    static unsigned char claims[10000 * CLAIM];
    FILE *file = argc == 3 ? fopen(argv[1], "rb") : NULL;
    if (!file || sodium_init() < 0) return 2;
    size_t count = fread(claims, CLAIM, 10000, file);
    for (int i = 0; i < atoi(argv[2]); i++)
        printf("%.2f %.2f\n", timed(by_sodium, claims, count), timed(by_openssl, claims, count));
    return 0;
}
