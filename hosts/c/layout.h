/* Where every field of every struct of the header stands, the same for every processor: the library
 * was compiled for these places. */
#ifndef LAYOUT_H
#define LAYOUT_H

#include "trawlbeacon.h"

#include <stddef.h>

#define AT(of, field, place) _Static_assert(offsetof(struct of, field) == (place), #of "." #field)

AT(tb_running, h, 0); AT(tb_running, rest, 64); AT(tb_running, count, 192);
AT(tb_request, code, 0); AT(tb_request, with_srv, 4); AT(tb_request, at, 8);
AT(tb_request, nonc, 16); AT(tb_request, srv, 48);
AT(tb_response, code, 0); AT(tb_response, indx, 4); AT(tb_response, at, 8);
AT(tb_response, midp, 16); AT(tb_response, radi, 24); AT(tb_response, nonc, 28);
AT(tb_response, root, 60);
AT(tb_wrote, code, 0); AT(tb_wrote, at, 8); AT(tb_wrote, length, 16);
AT(tb_parts, code, 0); AT(tb_parts, at, 8); AT(tb_parts, signature, 16);
AT(tb_parts, delegation, 80); AT(tb_parts, pubk, 144);
AT(tb_verdict, code, 0); AT(tb_verdict, radi, 4); AT(tb_verdict, at, 8); AT(tb_verdict, midp, 16);
AT(tb_verdict, low, 24); AT(tb_verdict, high, 32); AT(tb_verdict, mint, 40);
AT(tb_verdict, maxt, 48); AT(tb_verdict, pubk, 56);
AT(tb_rooted, code, 0); AT(tb_rooted, depth, 4); AT(tb_rooted, root, 8);
AT(tb_placed, code, 0); AT(tb_placed, indx, 4); AT(tb_placed, depth, 8);
AT(tb_laid, code, 0); AT(tb_laid, depth, 4); AT(tb_laid, length, 8);
AT(tb_batch, code, 0); AT(tb_batch, at, 8); AT(tb_batch, answered, 16);
AT(tb_found, code, 0); AT(tb_found, list, 4); AT(tb_found, offset, 8);
AT(tb_servers, code, 0); AT(tb_servers, records, 8); AT(tb_servers, passed_over, 16);
AT(tb_addressed, code, 0); AT(tb_addressed, tcp, 4); AT(tb_addressed, length, 8);
AT(tb_judged, code, 0); AT(tb_judged, radi, 4); AT(tb_judged, place, 8); AT(tb_judged, at, 16);
AT(tb_judged, midp, 24); AT(tb_judged, low, 32); AT(tb_judged, high, 40); AT(tb_judged, mint, 48);
AT(tb_judged, maxt, 56); AT(tb_judged, pubk, 64);
AT(tb_tally, most, 0);
AT(tb_reported, code, 0); AT(tb_reported, place, 8); AT(tb_reported, at, 16);
AT(tb_reported, first, 24); AT(tb_reported, second, 32);
AT(tb_cut, code, 0); AT(tb_cut, first, 8); AT(tb_cut, last, 16);
AT(tb_records, code, 0); AT(tb_records, records, 8);
AT(tb_published, code, 0); AT(tb_published, place, 8); AT(tb_published, at, 16);
AT(tb_published, length, 24);
AT(tb_forwarded, code, 0); AT(tb_forwarded, first, 8); AT(tb_forwarded, last, 16);
AT(tb_forwarded, length, 24);
AT(tb_walk, keys, 0); AT(tb_walk, count, 256); AT(tb_walk, step, 264); AT(tb_walk, nonce, 272);
AT(tb_walk, rand, 304); AT(tb_walk, last, 336); AT(tb_walk, most, 344);
AT(tb_asked, code, 0); AT(tb_asked, server, 8); AT(tb_asked, nonce, 16);
AT(tb_took, code, 0); AT(tb_took, outcome, 4); AT(tb_took, at, 8); AT(tb_took, first, 16);
AT(tb_took, second, 24); AT(tb_took, midp, 32); AT(tb_took, low, 40); AT(tb_took, high, 48);
AT(tb_took, mint, 56); AT(tb_took, maxt, 64); AT(tb_took, radi, 72);
AT(tb_clock, drift, 0); AT(tb_clock, low, 8); AT(tb_clock, high, 136); AT(tb_clock, maxt, 264);
AT(tb_clock, sent, 392); AT(tb_clock, received, 520);
AT(tb_time, code, 0); AT(tb_time, stopped, 4); AT(tb_time, low, 8); AT(tb_time, high, 16);
AT(tb_time, counted, 24); AT(tb_time, agree, 32); AT(tb_time, suspects, 40);
AT(tb_old, code, 0); AT(tb_old, low, 8); AT(tb_old, high, 16);

#undef AT

#endif
