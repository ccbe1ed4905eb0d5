/* Checks a certificate by nw_check, and its signatures by libsodium and OpenSSL, by turns, and prints the processor time of a signature for each.
 *
 *     certificates text             prints in hex the text that the votes for the block sign
 *     certificates FILE TURNS       checks the certificate of the file
 *
 * The file has the keys of 100 members, 32 bytes each, and then the certificate's message. The time that nw_committee_new takes comes first.
 */
#include "../bindings/c/nw.h"
#include <openssl/evp.h>
#include <sodium.h>
#include <stdio.h>
#include <stdlib.h>
#include <string.h>
#include <time.h>

enum { MEMBERS = 100, KEY = 32, FRONT = 41, COUNT = 2, SIGNER = 2, SIGNATURE = 64, REPEATS = 20 };

static const nw_subject SUBJECT = {{{7}}, 12, 3};
static nw_vote_text text;
static unsigned char file[MEMBERS * KEY + FRONT + COUNT + MEMBERS * (SIGNER + SIGNATURE)];
static const unsigned char *certificate = file + MEMBERS * KEY;
static size_t certificate_len, votes;
static nw_committee committee = {0};

static double now(void) {
    struct timespec t;
    clock_gettime(CLOCK_PROCESS_CPUTIME_ID, &t);
    return t.tv_sec * 1e6 + t.tv_nsec / 1e3;
}

static void need(int holds) {
    if (!holds) exit(1);
}

static const unsigned char *key_of(size_t vote) {
    const unsigned char *seal = certificate + FRONT + COUNT + vote * (SIGNER + SIGNATURE);
    return file + (seal[0] * 256 + seal[1]) * KEY;
}

static const unsigned char *signature_of(size_t vote) {
    return certificate + FRONT + COUNT + vote * (SIGNER + SIGNATURE) + SIGNER;
}

static void by_sodium(void) {
    for (size_t i = 0; i < votes; i++)
        need(crypto_sign_verify_detached(signature_of(i), text.bytes, sizeof text.bytes, key_of(i)) == 0);
}

static void by_openssl(void) {
    for (size_t i = 0; i < votes; i++) {
        EVP_PKEY *key = EVP_PKEY_new_raw_public_key(EVP_PKEY_ED25519, NULL, key_of(i), KEY);
        EVP_MD_CTX *context = EVP_MD_CTX_new();
        need(key && context && EVP_DigestVerifyInit(context, NULL, NULL, NULL, key) == 1);
        need(EVP_DigestVerify(context, signature_of(i), SIGNATURE, text.bytes, sizeof text.bytes) == 1);
        EVP_MD_CTX_free(context);
        EVP_PKEY_free(key);
    }
}

static void by_nw(void) {
    nw_checked checked = {0};
    nw_message message;
    need(nw_check(&committee, certificate, certificate_len, &checked) == NW_DONE);
    need(nw_checked_kind(&checked, &message) == NW_DONE && message.kind == NW_CERTIFICATE);
    nw_free(&checked);
}

static double timed(void (*check)(void)) {
    double begin = now();
    for (int i = 0; i < REPEATS; i++) check();
    return (now() - begin) / REPEATS / votes;
}

int main(int argc, char **argv) {
    need(nw_text_of_vote(&SUBJECT, &text) == NW_DONE);
    if (argc == 2) {
        for (size_t i = 0; i < sizeof text.bytes; i++) printf("%02x", text.bytes[i]);
        return 0;
    }
    FILE *read = argc == 3 ? fopen(argv[1], "rb") : NULL;
    need(read && sodium_init() >= 0);
    certificate_len = fread(file, 1, sizeof file, read) - MEMBERS * KEY;
    votes = certificate[FRONT] * 256 + certificate[FRONT + 1];
    static nw_member members[MEMBERS];
    for (size_t i = 0; i < MEMBERS; i++) {
        memcpy(members[i].key, file + i * KEY, KEY);
        members[i].weight = 1;
    }
    double begin = now();
    need(nw_committee_new(members, MEMBERS, &committee) == NW_DONE);
    printf("%.0f\n", now() - begin);
    for (int i = 0; i < atoi(argv[2]); i++) printf("%.2f %.2f %.2f\n", timed(by_sodium), timed(by_openssl), timed(by_nw));
    nw_free(&committee);
    return 0;
}
