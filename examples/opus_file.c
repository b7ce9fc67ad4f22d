/* Lists the packets of an Ogg Opus file (RFC 7845), and for each frame where it starts in its packet
 * and how many bytes it has. Needs libogg (Debian: libogg-dev).
 *
 *     cc examples/opus_file.c $(pkg-config --cflags --libs tignarops ogg) -o opus_file
 *     espeak-ng -w voice.wav 'one two three' && opusenc --bitrate 8 --speech voice.wav voice.opus
 *     ./opus_file voice.opus
 *
 * Without a name it reads standard input. Where the file has several streams, chained or side by side,
 * the first Opus stream is listed and the others are counted. Status 0: all its packets were listed;
 * 1: no Ogg Opus, or some of its data is missing, which the listing says; 2: usage.
 */
#include <ogg/ogg.h>
#include <stdio.h>
#include <string.h>
#include <tignarops.h>

enum { CHUNK = 4096, HEADERS = 2, HEAD_BYTES = 19 };

typedef struct {
    ogg_stream_state stream;
    int found, missing;
    unsigned other_streams, packets, answers[12], frames, milliseconds; /* answers: by refusal, 0 for accepted */
} listing;

/* RFC 7845, section 5.1: version 0.x, and one Opus stream, not several in each packet. */
static int is_opus_head(const ogg_packet *p) {
    if (p->bytes < HEAD_BYTES || memcmp(p->packet, "OpusHead", 8) != 0 || p->packet[8] > 15) return 0;
    int mapping_family = p->packet[18];
    return mapping_family == 0 || (p->bytes > HEAD_BYTES && p->packet[19] == 1);
}

static int begin_stream(ogg_stream_state *stream, ogg_page *first) {
    ogg_packet head;
    ogg_stream_init(stream, ogg_page_serialno(first));
    ogg_stream_pagein(stream, first);
    if (ogg_stream_packetout(stream, &head) == 1 && is_opus_head(&head)) return 1;
    ogg_stream_clear(stream);
    return 0;
}

static void list_packet(listing *l, const ogg_packet *p) {
    static const unsigned frame_milliseconds[4] = {10, 20, 40, 60};
    tg_packet a = tg_packet_read(p->packet, (size_t)p->bytes);
    printf("packet %u: %ld bytes, ", ++l->packets, p->bytes);
    l->answers[a.refusal]++;
    if (a.refusal) {
        printf("refused %u\n", a.refusal);
        return;
    }
    printf("config %u, arrangement %u, padding %u\n", a.config, a.arrangement, a.padding);
    for (uint32_t i = 0; i < a.count; i++) printf("  frame %u %u\n", a.start[i], a.size[i]);
    l->frames += a.count;
    l->milliseconds += a.count * frame_milliseconds[a.config % 4];
}

static void list_page(listing *l, ogg_page *page) {
    ogg_packet p;
    int got;
    ogg_stream_pagein(&l->stream, page); /* takes no page of another stream */
    while ((got = ogg_stream_packetout(&l->stream, &p)) != 0) {
        if (got < 0) {
            l->missing = 1;
            puts("data missing");
        } else if (p.packetno >= HEADERS) {
            list_packet(l, &p);
        }
    }
}

static void take_page(listing *l, ogg_page *page) {
    if (ogg_page_bos(page)) {
        if (!l->found && begin_stream(&l->stream, page)) l->found = 1;
        else l->other_streams++;
    } else if (l->found && !ogg_stream_eos(&l->stream)) {
        list_page(l, page);
    }
}

/* 0 at the file's end. Bytes that belong to no page are passed over. */
static int next_page(ogg_sync_state *sync, FILE *file, ogg_page *page) {
    int got;
    while ((got = ogg_sync_pageout(sync, page)) != 1) {
        if (got < 0) continue;
        size_t n = fread(ogg_sync_buffer(sync, CHUNK), 1, CHUNK, file);
        if (n == 0) return 0;
        ogg_sync_wrote(sync, (long)n);
    }
    return 1;
}

static int summary(listing *l) {
    int ended = ogg_stream_eos(&l->stream);
    if (!ended) puts("the stream does not end");
    if (l->other_streams) printf("other streams, not listed: %u\n", l->other_streams);
    printf("%u packets: %u accepted, %u refused 1, %u refused 10, %u refused 11; %u frames, %u ms\n", l->packets,
           l->answers[0], l->answers[1], l->answers[10], l->answers[11], l->frames, l->milliseconds);
    return ended && !l->missing ? 0 : 1;
}

int main(int argc, char **argv) {
    if (argc > 2) {
        fprintf(stderr, "usage: opus_file [FILE]\n");
        return 2;
    }
    FILE *file = argc == 2 ? fopen(argv[1], "rb") : stdin;
    if (!file) {
        perror(argv[1]);
        return 1;
    }
    ogg_sync_state sync;
    ogg_page page;
    listing l = {0};
    ogg_sync_init(&sync);
    while (next_page(&sync, file, &page)) take_page(&l, &page);
    int status = 1;
    if (l.found) {
        status = summary(&l);
        ogg_stream_clear(&l.stream);
    } else {
        fprintf(stderr, "opus_file: no Ogg Opus\n");
    }
    ogg_sync_clear(&sync);
    fclose(file);
    return status;
}
