/* What libnids, which has Linux' TCP, sees of the TCP connections of a capture:

       nids CAPTURE

   A line for each connection that it sees established, in the order in which it drops them: client, server, how it ended (close, reset, open,
   timeout), and of each direction, up before down, how many bytes it delivered and their sum (SHA-256). Checksums are looked at. */
#include <arpa/inet.h>
#include <nids.h>
#include <openssl/evp.h>
#include <stdio.h>
#include <stdlib.h>

struct direction {
    unsigned long bytes;
    EVP_MD_CTX *sum;
};

struct seen {
    struct direction directions[2]; /* up, down */
};

static struct seen *begin(void) {
    struct seen *seen = calloc(1, sizeof *seen);
    for (int side = 0; side < 2; side++) {
        seen->directions[side].sum = EVP_MD_CTX_new();
        EVP_DigestInit_ex(seen->directions[side].sum, EVP_sha256(), NULL);
    }
    return seen;
}

static void take(struct direction *direction, const struct half_stream *receiver) {
    if (!receiver->count_new)
        return;
    direction->bytes += receiver->count_new;
    EVP_DigestUpdate(direction->sum, receiver->data, receiver->count_new);
}

static void end(const struct tuple4 *peers, struct seen *seen, const char *how) {
    struct in_addr client = {peers->saddr}, server = {peers->daddr};
    printf("%s:%u", inet_ntoa(client), peers->source);
    printf(" %s:%u %s", inet_ntoa(server), peers->dest, how);
    for (int side = 0; side < 2; side++) {
        unsigned char sum[EVP_MAX_MD_SIZE];
        unsigned int size;
        EVP_DigestFinal_ex(seen->directions[side].sum, sum, &size);
        EVP_MD_CTX_free(seen->directions[side].sum);
        printf(" %lu ", seen->directions[side].bytes);
        for (unsigned int byte = 0; byte < size; byte++)
            printf("%02x", sum[byte]);
    }
    putchar('\n');
    free(seen);
}

static void callback(struct tcp_stream *stream, void **kept) {
    switch (stream->nids_state) {
    case NIDS_JUST_EST:
        stream->client.collect = stream->server.collect = 1;
        *kept = begin();
        break;
    case NIDS_DATA:
        take(&((struct seen *)*kept)->directions[0], &stream->server);
        take(&((struct seen *)*kept)->directions[1], &stream->client);
        break;
    case NIDS_CLOSE:
        end(&stream->addr, *kept, "close");
        break;
    case NIDS_RESET:
        end(&stream->addr, *kept, "reset");
        break;
    case NIDS_TIMED_OUT:
        end(&stream->addr, *kept, "timeout");
        break;
    default:
        end(&stream->addr, *kept, "open");
    }
}

static void silent(int type, int error, struct ip *packet, void *data) {
    (void)type, (void)error, (void)packet, (void)data;
}

int main(int count, char **words) {
    if (count != 2) {
        fprintf(stderr, "usage: %s CAPTURE\n", words[0]);
        return 2;
    }
    nids_params.filename = words[1];
    nids_params.n_tcp_streams = 1 << 16;
    nids_params.scan_num_hosts = 0;
    nids_params.syslog = silent;
    if (!nids_init()) {
        fprintf(stderr, "%s\n", nids_errbuf);
        return 1;
    }
    nids_register_tcp((void *)callback);
    nids_run();
    nids_exit();
    return 0;
}
