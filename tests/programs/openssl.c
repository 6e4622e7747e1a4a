/* OpenSSL: CRYPTO_set_mem_functions, whose hooks have no context. A client and a server shake hands, in TLS 1.2 and 1.3, and send
 * bytes to each other in memory. Random numbers are the same in each run, so that the calls are. */
#define OPENSSL_SUPPRESS_DEPRECATED
#include "harness.h"

#include <openssl/crypto.h>
#include <openssl/evp.h>
#include <openssl/rand.h>
#include <openssl/ssl.h>
#include <openssl/x509.h>
#include <string.h>

const char program_name[] = "OpenSSL";

const char *program_version(void) { return OpenSSL_version(OPENSSL_VERSION_STRING); }

enum { SHAKES = 30, MOST_BYTES = 12000 };

/* --- The hooks --------------------------------------------------------------------------------------------------------- */

static void *take(size_t n, const char *file, int line) {
    (void)file, (void)line;
    return hook_malloc(n);
}

static void give(void *p, const char *file, int line) {
    (void)file, (void)line;
    hook_free(p);
}

static void *change(void *p, size_t n, const char *file, int line) {
    if (n != 0) return hook_realloc(p, n);
    give(p, file, line);
    return NULL;
}

static int draw(unsigned char *to, int n) {
    static unsigned long long state = 1;
    for (int k = 0; k < n; k++) {
        state = state * 6364136223846793005u + 1442695040888963407u;
        to[k] = (unsigned char)(state >> 56);
    }
    return 1;
}

static int is_seeded(void) { return 1; }

/* --- What both ends need ----------------------------------------------------------------------------------------------- */

/* A certificate that signs itself. */
static X509 *certify(EVP_PKEY *key) {
    X509 *it = X509_new();
    X509_NAME *name = it != NULL ? X509_get_subject_name(it) : NULL;
    if (name != NULL && X509_set_version(it, 2) == 1 && ASN1_INTEGER_set(X509_get_serialNumber(it), 7) == 1 &&
        X509_gmtime_adj(X509_getm_notBefore(it), -60) != NULL && X509_gmtime_adj(X509_getm_notAfter(it), 86400) != NULL &&
        X509_NAME_add_entry_by_txt(name, "CN", MBSTRING_ASC, (const unsigned char *)"a test", -1, -1, 0) == 1 &&
        X509_set_issuer_name(it, name) == 1 && X509_set_pubkey(it, key) == 1 && X509_sign(it, key, EVP_sha256()) != 0)
        return it;
    X509_free(it);
    return NULL;
}

static SSL_CTX *serve(EVP_PKEY *key, X509 *certificate) {
    SSL_CTX *it = SSL_CTX_new(TLS_server_method());
    if (it != NULL && SSL_CTX_use_certificate(it, certificate) == 1 && SSL_CTX_use_PrivateKey(it, key) == 1) return it;
    SSL_CTX_free(it);
    return NULL;
}

/* A client trusts that certificate, and no other. */
static SSL_CTX *trust(X509 *certificate) {
    SSL_CTX *it = SSL_CTX_new(TLS_client_method());
    if (it != NULL && X509_STORE_add_cert(SSL_CTX_get_cert_store(it), certificate) == 1) {
        SSL_CTX_set_verify(it, SSL_VERIFY_PEER, NULL);
        return it;
    }
    SSL_CTX_free(it);
    return NULL;
}

/* --- A handshake ------------------------------------------------------------------------------------------------------- */

static bool join(SSL *client, SSL *server) {
    BIO *one = NULL, *other = NULL;
    if (BIO_new_bio_pair(&one, 0, &other, 0) != 1) return false;
    SSL_set_bio(client, one, one);
    SSL_set_bio(server, other, other);
    SSL_set_connect_state(client);
    SSL_set_accept_state(server);
    for (int turn = 0; turn < 10 && !(SSL_is_init_finished(client) && SSL_is_init_finished(server)); turn++) {
        SSL_do_handshake(client);
        SSL_do_handshake(server);
    }
    return SSL_is_init_finished(client) && SSL_is_init_finished(server);
}

static bool pass(SSL *from, SSL *to, unsigned k) {
    static unsigned char sent[MOST_BYTES], came[MOST_BYTES];
    const int n = (int)(1 + k * 997 % MOST_BYTES);
    for (int b = 0; b < n; b++) sent[b] = (unsigned char)(b * b + (int)k);
    if (SSL_write(from, sent, n) != n || SSL_read(to, came, n) != n) return false;
    say_bytes(came, (size_t)n);
    return true;
}

static bool shake(SSL_CTX *clients, SSL_CTX *servers, unsigned k) {
    SSL *client = SSL_new(clients), *server = SSL_new(servers);
    bool all = client != NULL && server != NULL && SSL_set_max_proto_version(client, k % 2 == 0 ? TLS1_3_VERSION : TLS1_2_VERSION) == 1 &&
               join(client, server) && pass(client, server, k) && pass(server, client, k + 1);
    if (all) say("%s %s %ld\n", SSL_get_version(client), SSL_get_cipher(client), SSL_get_verify_result(client));
    SSL_shutdown(client);
    SSL_shutdown(server);
    SSL_free(client);
    SSL_free(server);
    return all;
}

static bool work(void) {
    EVP_PKEY *key = EVP_EC_gen("P-256");
    X509 *certificate = key != NULL ? certify(key) : NULL;
    SSL_CTX *servers = certificate != NULL ? serve(key, certificate) : NULL, *clients = servers != NULL ? trust(certificate) : NULL;
    bool all = clients != NULL;
    for (unsigned k = 0; all && k < SHAKES; k++) all = shake(clients, servers, k);
    SSL_CTX_free(clients);
    SSL_CTX_free(servers);
    X509_free(certificate);
    EVP_PKEY_free(key);
    return all;
}

bool program_work(const char *file) {
    static const RAND_METHOD same = {NULL, draw, NULL, NULL, draw, is_seeded};
    (void)file;
    if (CRYPTO_set_mem_functions(take, change, give) != 1) return false;
    const bool all = OPENSSL_init_crypto(OPENSSL_INIT_NO_LOAD_CONFIG, NULL) == 1 && RAND_set_rand_method(&same) == 1 && work();
    OPENSSL_cleanup();
    return all;
}
