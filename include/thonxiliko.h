/*
 * thonxiliko.h: changed 8 KiB pages kept beside an unchanging base.
 *
 * WHAT IT IS
 *
 * A data file of PostgreSQL is a row of pages ("blocks") of 8,192 bytes; a segment of it has at
 * most 131,072 of them. Somebody keeps a copy that is never written to: the base. This library
 * keeps what has changed since then in two buffers beside it:
 *
 *   the patch area   one slot of 512 bytes for each block: nothing, or the few bytes that differ;
 *   the full area    whole pages, for blocks that differ in more than a slot can hold.
 *
 * thx_format makes both areas empty. A page is written in two calls: thx_compare holds it against
 * its page in the base and decides what it takes, nothing, a patch or a full page; thx_carry_out
 * stores what was decided. In between, the caller may show it or leave it. thx_read reads the page
 * back, over the same page in the base. Where the data file has become shorter, thx_cut drops the
 * blocks past its end; thx_highest tells up to which block anything is kept. thx_sweep clears up
 * after a write that was stopped halfway. thx_build checks a whole store and makes a map that tells
 * for each block where its page is. A program that keeps this map lends it to every write and every
 * cut, by thx_carry_out_mapped and thx_cut_mapped, and may then read by it, with thx_read_mapped.
 * thx_show and thx_next look into a slot: where its bytes lie, and what they say. Both areas, the
 * map and all pages are the caller's memory. The library opens no file, allocates nothing and keeps
 * nothing between two calls.
 *
 *
 * LINKING
 *
 * The archive libthonxiliko.a is for x86-64 Linux (`rust/archive` makes it). It needs memcpy, memmove
 * and memset and nothing else. It links into C and C++ programs and into shared libraries:
 *
 *   cc -I include program.c target/staticlib/libthonxiliko.a -o program
 *
 * For machines that all have AVX2 and the rest of x86-64-v3 there is another archive of the same
 * functions (`rust/native x86-64-v3` makes it), target/native/x86-64-v3/libthonxiliko.a. A program
 * links one of the two.
 *
 * A call takes less than 10 KiB of stack. thx_compare, thx_apply and the reads of blocks keep room
 * for a page of zeros there; the others, carrying out among them, take less than 1 KiB.
 *
 *
 * SIZES (bytes)
 *
 *   page                 8,192
 *   base page            8,192, or 0: a base of length 0 stands for a page of 8,192 zeros. Use it
 *                        for blocks past the end of the base file.
 *   patch area           512 + 512 * n      for n blocks, n from 0 to 131,072. It is never absent.
 *   full area            0 (absent), or
 *                        4,096 + 8,192 * m  with room for the pages of blocks 0 to m - 1, m from 0
 *                        to n. An absent full area counts as m = 0.
 *   slot                 512
 *   payload of a slot    1 to 504
 *   block map            n / 4, rounded up
 *
 * The slot of block b starts at byte 512 + 512 * b of the patch area, its page at byte
 * 4,096 + 8,192 * b of the full area. All numbers in areas and payloads are little endian.
 *
 *
 * WHAT THE AREAS HOLD
 *
 *   bytes     patch header (512 bytes)   full header (4,096 bytes)
 *   0..7      "PBKPATCH"                 "PBKFULL" and a zero byte
 *   8..9      version 2                  version 1
 *   10..11    flags 0                    flags 0
 *   12..15    page size 8192             page size 8192
 *   16..19    slot size 512              zero
 *   rest      zero                       zero
 *
 * A slot: kind (1 byte), flags (1), payload length (2), four zero bytes, 504 bytes of room.
 * Three slots are sound:
 *
 *   kind 0  EMPTY      the page equals its base. All 512 bytes are zero.
 *   kind 1  PATCH      flags 1, payload length 1 to 504, zero after the payload.
 *   kind 2  FULL_REF   the page stands in the full area. Every other byte is zero.
 *
 * In the full area the place of a block that is not FULL_REF is all zeros. A write that was stopped
 * can leave a page there, until thx_sweep removes it.
 *
 * A payload is a row of entries, each a jump and a value byte. A jump of 0 to 254 is one byte. A
 * jump of 255 to 65,535 is the byte 255 and then the jump in 16 bits, low byte first: the long
 * form. A position starts at -1 and grows by jump + 1 with each entry. It must stay at or below
 * 8,191, and the value replaces the base's byte there. A payload is sound if it has 1 to 504 bytes
 * and is used up by sound entries. An entry is not sound if it is cut off, if it leaves the
 * page, or if it has a jump below 255 in the long form. FF FF 00 05 is sound. FF 00 00 05 is not,
 * and is refused with 7 and its entry's offset, 0; the same change is spelled 00 05.
 *
 * So a list of changes has one spelling: two sound payloads that list the same positions and values
 * are the same bytes, and comparing the bytes tells whether they do. Two that list others may still
 * make the same page: an entry may have the value that the base has there.
 *
 * The stream of a page is what the library itself makes of it: one entry for each byte that differs
 * from the base, in rising order, and no other; jumps below 255 in one byte, others in the long
 * form. An entry takes 2 or 4 bytes, so a page with up to 221 differences always fits a slot and
 * one with more than 252 never does.
 *
 *
 * A WRITE IN TWO CALLS
 *
 * thx_compare decides and stores nothing; no area is lent to it. thx_carry_out stores and decides
 * nothing: it takes the kind, the payload and the page that it is given, and knows no base. This
 * keeps `page` as a block's page over `base`:
 *
 *   uint8_t buffer[THX_PAYLOAD_SIZE];
 *   thx_compared c = thx_compare(base, base_len, page, page_len, buffer, sizeof buffer);
 *   thx_written w = {c.number, 0, 0};
 *   if (c.number == THX_DONE)
 *       w = thx_carry_out(patch, patch_len, full, full_len, block, c.kind, buffer,
 *                         c.kind == THX_DIFFERENCE_PATCH ? c.length : 0, page, page_len,
 *                         THX_STORES_ALL);
 *
 * Between the two, c.kind is what would be stored: with THX_DIFFERENCE_LARGE it would take a full
 * page. To leave it, do not carry it out. So:
 *
 *   - EMPTY is stored if the page equals its base, PATCH if the stream takes at most 504 bytes,
 *     FULL_REF otherwise. Where the areas and the block are right it is refused with 8 alone, and
 *     just if it would take a full page and the block is not below m.
 *   - Read over the same base, the block is then this page.
 *   - Neither the page nor the buffer may change between the two: nothing is compared again.
 *   - For LARGE c.length is more than the buffer has. Lend it only for PATCH, as above.
 *
 * Two mistakes of a caller cannot be noticed, since what is carried out is sound:
 *
 *   1. LENDING THE WHOLE BUFFER. All bytes that are lent are the payload. Where 00 07 stands in a
 *      buffer of zeros and all 504 bytes are lent, instead of c.length = 2, they are a sound
 *      payload of 252 entries: the first writes 7 at byte 0, the other 251, each 00 00, write zeros
 *      at bytes 1 to 251. The answer is number 0, kind 1, length 504, and the block reads as
 *      another page than was compared, unless bytes 1 to 251 of that were zeros. Other bytes behind
 *      the stream make other changes, or are refused with 7.
 *   2. CARRYING OUT A REFUSED COMPARE. With a page of 8,191 bytes it answers 1, and its kind is 0,
 *      as is every other member. Kind 0 is EMPTY: carried out, it is done, and answers number 0,
 *      kind 0, length 0. The block is EMPTY then and reads as its base: the page that it held is
 *      lost, and the new one was never stored. So look at c.number first.
 *
 *
 * A MAP THAT IS KEPT
 *
 * A map has two bits for each block, a pair: block b in bits 2 * (b mod 4) and up of byte b / 4.
 * It is 0 for EMPTY, 2 for PATCH, 1 for FULL_REF, and never 3. thx_build looks at every slot to
 * make it. To keep it instead:
 *
 *   - begin with n / 4 bytes, rounded up, of zeros beside areas that were just formatted, or with
 *     the map that thx_build makes of areas that come from elsewhere, from disk for instance;
 *   - lend it to EVERY write from then on, by thx_carry_out_mapped told all stores, and to EVERY
 *     cut, by thx_cut_mapped;
 *   - then it is, after each of these writes and cuts, the map that thx_build would make, and
 *     thx_read_mapped answers as thx_read does. A refused one leaves it as it is, and right.
 *
 * Nothing in a map says which store it belongs to or how old it is, and thx_read_mapped trusts it.
 * A single write by thx_carry_out, a write that was stopped, a thx_cut, a thx_format, a map of
 * another store, or areas put back to an earlier state make it wrong, and a read by it is then
 * mostly not refused:
 *
 *   pair 0   gives the base, though the block was written: yesterday's page, in silence. The slot
 *            is not looked at.
 *   pair 1   gives what stands in the block's place, zeros for instance. The slot is not looked at.
 *   pair 2   is refused with 6 unless the slot is a sound PATCH slot; with another sound PATCH slot
 *            it is as right as that slot.
 *
 * Where a map may have missed a write or a cut, and after a sweep, build it anew. Do not keep it in
 * a file that can be older than the areas: opening a store is the time to build it.
 *
 *
 * CUTTING A TABLE SHORT
 *
 * When a table is emptied, or its last pages are given back, PostgreSQL's file becomes shorter: it
 * has k blocks now. thx_cut with this k drops block k and all blocks after it in one go. With a map
 * that is kept it is thx_cut_mapped.
 *
 *   - After a cut each block from k on is EMPTY and reads as its base, whatever it held before: a
 *     patch, a full page, a slot that was not sound, stray bytes. Blocks below k keep every byte.
 *   - A block that was cut may be written and read over another base from then on. Only such a
 *     block may: what is kept of any other was made over the base that its page was compared with.
 *   - A cut does not shorten the buffers. n and m stay, and a block from k on can be written again
 *     when the table grows. To have shorter areas, cut and then lend the first 512 + 512 * k bytes
 *     of the patch area, the full area with no more than its first k places, and the map as before.
 *     The library knows no files: in a file that is mapped, what was dropped is zeros and takes its
 *     room as before. What was zeros before is not written to, so no hole is filled.
 *   - The base is not cut along. While it still has its pages from k on, a block there reads as
 *     last night's page and not as zeros, so do not read past the end of the data file. Where the
 *     base file is cut at k as well, lend a base of length 0 for these blocks, as past the end of
 *     any base: they read as zeros. Cut the store too, and before any of them is read or written: a
 *     patch that is left there would be laid over zeros, a page that never was. Never cut the base
 *     below k, since blocks below k need it.
 *
 * thx_highest tells how many blocks there are up to the last one of which anything is kept: one
 * more than the highest block that is not EMPTY, or 0. After a cut at k it is k or less. THIS IS
 * NOT ALWAYS THE LENGTH OF POSTGRESQL'S FILE. A page that equals its base is EMPTY, and past the
 * base's end so is a page of zeros; where the file ends with such pages, thx_highest gives less
 * than its length. It is the file's length where the file's last page differs from its base and all
 * that was kept past the file's end has been cut. So keep the length elsewhere, and take
 * thx_highest for what it is: from that block on there is nothing but the base.
 *
 *
 * A WRITE THAT IS STOPPED
 *
 * A process is killed or the power goes, and a write has been made in part. Carrying out is at most
 * two whole stores, one after the other:
 *
 *   kind               first store                        second store
 *   FULL_REF           the page into the block's place    the slot
 *   EMPTY and PATCH    the slot                           zeros into the block's place; a block
 *                                                         that is not below m has none
 *
 * It is told by `stores` how many of them to make: 0, 1 or, by any other number, all. A write that
 * is told fewer is a stop, so each state that a stop leaves can be made and looked at. Refusals and
 * answer are the same whatever is told. Where this page speaks of a write and says nothing of a
 * stop, the write is told all.
 *
 *   - Told 0, nothing changes. Told 1, the first store is made.
 *   - A map that is lent is changed only when told all. 1 is never all, even where one store is all
 *     there is: EMPTY or PATCH on a block that is not below m, told 1, is the whole write but for
 *     the map.
 *   - After a stop thx_read gives the block as before the write, or as after the whole of it, and
 *     every other block as before.
 *   - What a stop can leave is a page in the place of a block that is not FULL_REF: a new page that
 *     has no slot yet, or an old one that has none any more. Unless it is all zeros thx_build gives
 *     10 then.
 *
 * thx_sweep zeroes every such place. Say that one write was stopped in a run of writes and cuts
 * from fresh areas, and that others came after it or none. After the sweep both areas are, byte for
 * byte, those of the run with that write whole, or those of the run without it. Without it, if it
 * was told 0, or told 1 with FULL_REF on a block whose slot was not FULL_REF; else with it. So
 * after a trip: sweep, build the map, and write again what may be missing; on files with a sync
 * before the sweep and after it, as below.
 *
 *   - BUILD THE MAP ANEW AFTER A SWEEP. The write that was stopped has not set its pair. Where a
 *     FULL_REF block was to become PATCH, was told 1 and was swept, its pair is still 1, its place
 *     is zeros, and thx_read_mapped gives this page of zeros in silence: neither the old page nor
 *     the new one. Where an EMPTY block became PATCH its pair is 0 and gives the base.
 *   - SWEEP ONLY AFTER A KNOWN STOP, when 10 from thx_build means: sweep. Without one it means that
 *     something is lost, a FULL_REF slot for instance, and then its place has the only copy of the
 *     page. A sweep erases it.
 *   - MEMORY IS NOT DISK. What is proved is what a call leaves in memory when it returns. In a file
 *     that is mapped the second store may reach the disk first: the zeros before the slot, say, and
 *     after a power cut the block is FULL_REF and reads as zeros. Nor is anything proved of which
 *     store has been made when a call told all is killed. To make a stop safe on files, carry each
 *     write out in two calls, with a sync after each:
 *
 *       1. told 1, then sync the area that it wrote: for FULL_REF the full area, else the patch
 *          area;
 *       2. the same told all, then sync both areas. Only then comes the next write.
 *
 *     AFTER A KILL SYNC THE PATCH AREA BEFORE THE SWEEP, and the full area after it. A slot that
 *     the dead process stored may not be on disk yet. If the zeros of the sweep get there first and
 *     the power goes, the disk has FULL_REF over zeros, which no call notices.
 *
 *     A write told 1 and then the same told all are together the whole write. This trusts that what
 *     was synced is on disk, and that a disk writes 512 bytes, a slot, whole or not at all. A page
 *     may still be torn where FULL_REF replaces FULL_REF: the new page overwrites the old one.
 *   - No store is itself cut here. Nothing is promised of a kill in the middle of one, nor of a cut
 *     that is stopped. A cut can be made again with the same k: it does not look at what it drops.
 *     A sweep can be made again, too.
 *
 *
 * AREAS IN FILES
 *
 * The library knows no files. A program that keeps its areas in files, read and written whole or
 * mapped, sees to the rest. n and m stand nowhere in an area: its length is all that says them.
 *
 *   - TO GROW, APPEND ZEROS. A longer patch area has more EMPTY slots, a longer full area more
 *     places that are empty. Every block reads as before, and thx_build accepts the areas if it did
 *     before. Slots come first, since m is at most n. Then zeros to a map that is kept, up to n / 4
 *     bytes, rounded up, then places. A stop between two of these steps leaves a sound store.
 *     ftruncate appends zeros. A mapping does not grow with its file: map it anew.
 *   - A FILE THAT HAS LOST ITS END MAY PASS. Cut off between two slots it is an area of fewer
 *     blocks, which thx_build accepts unless m is over n now. Cut off between two places it is
 *     accepted unless a FULL_REF block has lost its place. So keep n and m elsewhere too.
 *   - HOLES. Zeros need no room in a file that may have holes. Formatting, cutting, sweeping and
 *     clearing a block's place leave alone what is zeros already, so no hole is filled. The library
 *     punches none either: a place that it has cleared keeps its room until the program gives it
 *     back (on Linux by fallocate), which changes no byte.
 *   - SYNC as shown above, in A WRITE THAT IS STOPPED. After a file has grown sync it, its length
 *     too (fsync), before a write to what was appended.
 *   - ONE WRITER AT A TIME. What is said below of threads (BUFFERS) holds for processes that map
 *     the same files. The library takes no lock.
 *   - NEVER SHORTEN A FILE WHILE IT IS MAPPED, by this process or another. A call that then looks
 *     past the end of the file gets a signal (SIGBUS) in the middle of its work, and so does one
 *     that writes to a hole when the disk is full; posix_fallocate takes the room before. This is
 *     outside every promise: nothing is said of what such a call leaves.
 *   - KEEP A CHECKSUM of both files beside them when they are closed, with the name of the base,
 *     and hold it against them before they are opened again. The layout has none: a slot that was
 *     lost reads as its base, in silence. docs/TRUST.md says what is noticed without one.
 *
 *
 * ANSWERS
 *
 * Every function but thx_show, which has no number, answers with a struct whose first member
 * `number` is 0 if the call was done, else the refusal:
 *
 *    0  THX_DONE              done
 *    1  THX_BAD_PAGE_LENGTH   a base is not 0 or 8,192 bytes, or another page is not 8,192 bytes
 *                             (carrying out: the page of a FULL_REF is not)
 *    2  THX_BAD_AREA_LENGTH   the length of an area or slot is none of those above, m is over n, or
 *                             n is over 131,072
 *    3  THX_BAD_HEADER        magic, flags, sizes or zero bytes of a header are wrong
 *    4  THX_BAD_VERSION       the version in a header is wrong
 *    5  THX_BAD_BLOCK         the block is not below n (a cut: k is above n)
 *    6  THX_BAD_SLOT          the slot is not sound (thx_highest and thx_sweep: some slot is not;
 *                             carrying out: the kind is above 2, so that it would make no sound
 *                             slot)
 *    7  THX_BAD_PAYLOAD       the payload is not sound (thx_next: no entry can be read here)
 *    8  THX_NO_FULL_PAGE      a full page is needed for a block that is not below m (thx_sweep: for
 *                             some block)
 *    9  THX_SHORT_BUFFER      the payload buffer or the map buffer is too short
 *   10  THX_STRAY_PAGE        thx_build: the block's place in the full area is not zero although
 *                             its slot is not FULL_REF: see A WRITE THAT IS STOPPED
 *   11  THX_BAD_PAIR          a pair of the map is 3, or a pair past n is not 0
 *
 * Order. Where several refusals apply, the first one in this order is given:
 *   1, 2, 9, headers, 5, 6, 8, 7, 10, 11.
 * thx_read_mapped alone has 11 elsewhere, right after 5: it looks at the pair before the slot.
 * "Headers" is six steps: patch magic (3), patch version (4), the rest of the patch header (3),
 * then the same three for the full header. A full area of length 0 has no header to check.
 * thx_build and thx_sweep take blocks in rising order and stop at the first that is at fault.
 *
 * On every refusal all buffers keep every byte they had, and every other member of the answer is 0
 * (`last` too), with two exceptions:
 *
 *   thx_build gives the block with 6, 7, 8 and 10;
 *   thx_apply, thx_read, thx_read_mapped and thx_build give the offset with 7.
 *
 * A refusal is given whenever its condition holds and no earlier one does, and at no other time.
 * thx_next is no part of this: it has an order of its own, and where it gives no entry it stands
 * still, which is no refusal. See there.
 *
 * Offset. With 7, `offset` is where the first entry that is not sound starts: the place of its jump
 * code (in the long form the byte 255), counted from the payload's first byte. For an empty payload
 * and for one of more than 504 bytes it is 0, whatever the entries are. With any other number, 0
 * (done) too, `offset` is 0. Carrying out gives 7 without an offset; thx_apply tells it.
 * Where a payload was damaged, the damage mostly lies before the offset: a wrong jump moves every
 * entry after it, and the payload breaks further on. thx_next steps through it from the beginning.
 *
 *
 * ON REFUSAL N, DO THIS
 *
 * A refused call has changed nothing. So mend the cause, and make the same call again.
 *
 *    1  Your lengths are wrong; no area was looked at. Lend a page of 8,192 bytes and a base of
 *       8,192 or 0. For a block past the end of the base file lend a base of length 0.
 *    2  See what you lend: another file, the two areas exchanged, the length of another file, or m
 *       over n. Places were appended before slots: append the slots. Appending zeros was stopped
 *       halfway: append the rest. Else the file has lost its end: restore it. Do not fill it up
 *       with zeros: what was lost would read as its base or as zeros. thx_judge takes a slot of 512
 *       bytes, thx_look_up and thx_tally the store's own n.
 *    3  The file is no area, or its header is damaged: lend the right one, or restore it. If it is
 *       new, format it. Formatting drops all that both areas hold.
 *    4  The file is an area of another version of the layout: use the software that wrote it. If it
 *       was this one, the header is damaged: restore it. Do not write another version into it.
 *    5  The number is wrong, or the block is past the area. If the area was longer once, and is not
 *       shorter by your own doing (CUTTING A TABLE SHORT), it has lost its end: restore it. If not,
 *       nothing is kept of the block, and its page is its base. To write it, append slots of zeros
 *       until it is below n, and zeros to a map that is kept. A cut with k above n has nothing to
 *       drop: leave it. Block 131,072 is block 0 of the next segment, which has its own areas.
 *    6  Carrying out: give a kind that a thx_compare with number 0 gave. Else a slot is damaged;
 *       thx_build names the block. Restore both areas, or write the block's page again if you have
 *       it: carrying out does not look at what the block held. thx_read_mapped: if the map may have
 *       missed a write, a cut or a sweep, build it anew and read again. If it has missed none, the
 *       slot was lost: restore, and do not build before. thx_build may accept what is left, and the
 *       block then reads as its base.
 *    7  Carrying out and thx_apply: the payload that you lend is not sound. Lend the first c.length
 *       bytes of thx_compare's buffer and no more; thx_apply tells where it breaks. Else the
 *       payload of a slot is damaged: as with 6 restore, or write the page again.
 *    8  Carrying out, with a full area: append places of 8,192 zeros until the block is below m,
 *       and carry out again. With none: make one of 4,096 bytes, by thx_format with a scratch patch
 *       area of 512 bytes, never with the store's own, and append places to it.
 *       The reads, thx_build and thx_sweep: the full area has lost its end, or all, or is another
 *       store's. Restore both areas. Do not append places: the block would read as zeros.
 *       thx_read_mapped: it may be the map that is wrong, as with 6.
 *    9  Lend a longer buffer: thx_compare takes 504 bytes, whatever the page, and a map is n / 4
 *       bytes, rounded up. If a map is kept and n has grown, append zeros to it.
 *   10  After a write that is known to have been stopped: thx_sweep, then thx_build again; on files
 *       with a sync before and after, see A WRITE THAT IS STOPPED. If none is known, a slot is
 *       lost, or the two areas are not of one time, and this may be the only copy of a page.
 *       Restore both areas. Do not sweep: it erases the page, and the block reads as its base.
 *   11  The map is damaged, or another store's: build it anew. thx_look_up and thx_tally take the
 *       store's own n.
 *
 * 2, 3 and 4 do not say which area is at fault. thx_highest is lent the patch area alone: if it
 * gives the same number, it is that one; if not, it is the full area, or, with 2, m is over n.
 *
 * To restore is to put both areas back from a copy of one time, and then to build the map. Writes
 * and cuts since that copy are made again.
 *
 * thx_refusal_text and thx_refusal_advice have a number's meaning, and this table, in a line each.
 *
 *
 * BUFFERS
 *
 * A buffer is a pointer and its length in bytes. Any length is allowed; a wrong one is refused by
 * its number, unless the call does not look at the buffer at all (see thx_carry_out). Where the
 * length is 0 the pointer is not used and may be anything, NULL too. Else it points to that many
 * bytes, which may lie at any address: nothing needs to be aligned.
 *
 * Overlap. A buffer that a call writes (one without const) must not overlap any other buffer of
 * that call. Two buffers that a call only reads may be the same or overlap. So a payload that
 * thx_show names is copied before it is carried out on the store in which it lies.
 *
 * Threads. Two calls may run at the same time if no buffer that one of them writes is lent to the
 * other, not even a part of it. So calls that only read the same buffers may: for instance two of
 * thx_read on one store, into two pages. thx_compare is lent no store, so pages may be compared
 * while others are carried out, into a buffer of their own. Two of thx_carry_out on one store may
 * not, even for different blocks, nor two of thx_carry_out_mapped with one map: four blocks share a
 * byte of it. Nor may a cut beside any other call on its store, nor a sweep beside one that is lent
 * its full area or writes its patch area. The library takes no lock.
 *
 * Numbers may be anything that their type holds: a block, a k, an n or a kind that is too large is
 * refused, thx_next takes any place and any position, and carrying out any number of stores.
 */
#ifndef THONXILIKO_H
#define THONXILIKO_H

#include <stddef.h>
#include <stdint.h>

#ifdef __cplusplus
extern "C" {
#endif

/*
 * The version of this interface: 0.7.0 is 700, as in #if THX_VERSION >= 700. The second number is
 * the last request of the paper that has landed: it grows when a call, a number or an answer is new
 * or another, and the third is 0 then. The third grows when this header gains something and every
 * program that was right stays right. The first is 0 while requests are still coming. An archive
 * has no version in it: take it and the header from one tree.
 */
#define THX_VERSION_MAJOR 0
#define THX_VERSION_MINOR 7
#define THX_VERSION_PATCH 0
#define THX_VERSION (THX_VERSION_MAJOR * 10000 + THX_VERSION_MINOR * 100 + THX_VERSION_PATCH)
#define THX_VERSION_STRING "0.7.0"

/*
 * Stands before every call: GCC and clang warn where an answer is not looked at. A program that
 * defines it as nothing before it includes this header is not warned.
 */
#ifndef THX_MUST_USE
#ifdef __GNUC__
#define THX_MUST_USE __attribute__((warn_unused_result))
#else
#define THX_MUST_USE
#endif
#endif

/* Sizes in bytes. */
#define THX_PAGE_SIZE 8192
#define THX_SLOT_SIZE 512
#define THX_PAYLOAD_SIZE 504
#define THX_PATCH_HEADER_SIZE 512
#define THX_FULL_HEADER_SIZE 4096

/* The most blocks that one patch area has slots for. */
#define THX_MAX_BLOCKS 131072

/* The numbers given back, as described above. */
#define THX_DONE 0
#define THX_BAD_PAGE_LENGTH 1
#define THX_BAD_AREA_LENGTH 2
#define THX_BAD_HEADER 3
#define THX_BAD_VERSION 4
#define THX_BAD_BLOCK 5
#define THX_BAD_SLOT 6
#define THX_BAD_PAYLOAD 7
#define THX_NO_FULL_PAGE 8
#define THX_SHORT_BUFFER 9
#define THX_STRAY_PAGE 10
#define THX_BAD_PAIR 11

/* Kinds of a slot: in the answers of thx_judge, the reads and carrying out, which is told one. */
#define THX_KIND_EMPTY 0
#define THX_KIND_PATCH 1
#define THX_KIND_FULL 2

/* How many stores carrying out makes. Any number but 0 and 1 means all. */
#define THX_STORES_NONE 0
#define THX_STORES_ONE 1
#define THX_STORES_ALL 2

/* Kinds of a difference, in the answer of thx_compare; carried out, each makes that slot. */
#define THX_DIFFERENCE_SAME 0
#define THX_DIFFERENCE_PATCH 1
#define THX_DIFFERENCE_LARGE 2

/* Pairs of a block map. They are not numbered as the kinds are; 3 is never a sound pair. */
#define THX_PAIR_EMPTY 0
#define THX_PAIR_FULL 1
#define THX_PAIR_PATCH 2

/* What a number means, in words, for a message. */
static inline const char *thx_refusal_text(uint32_t number) {
    switch (number) {
    case THX_DONE: return "done";
    case THX_BAD_PAGE_LENGTH: return "a page has a wrong length";
    case THX_BAD_AREA_LENGTH: return "an area or slot has a wrong length, or too many blocks";
    case THX_BAD_HEADER: return "a header is wrong";
    case THX_BAD_VERSION: return "the version in a header is wrong";
    case THX_BAD_BLOCK: return "the store has no such block";
    case THX_BAD_SLOT: return "the slot is not sound";
    case THX_BAD_PAYLOAD: return "the payload is not sound";
    case THX_NO_FULL_PAGE: return "the full area has no place for the block";
    case THX_SHORT_BUFFER: return "the payload or map buffer is too short";
    case THX_STRAY_PAGE: return "the full area holds a page that no slot refers to";
    case THX_BAD_PAIR: return "a pair of the map is wrong";
    default: return "no number of this library";
    }
}

/* What to do then: the table ON REFUSAL N, DO THIS, which says more, in a line each. */
static inline const char *thx_refusal_advice(uint32_t number) {
    switch (number) {
    case THX_DONE: return "nothing is to be done";
    case THX_BAD_PAGE_LENGTH:
        return "lend a page of 8,192 bytes, a base of 8,192, or of 0 past the base file's end";
    case THX_BAD_AREA_LENGTH:
        return "see what is lent: another file, areas exchanged, m over n; else restore it";
    case THX_BAD_HEADER:
        return "lend the right file, or restore it; format it only if it is new";
    case THX_BAD_VERSION:
        return "use the software that wrote this version, or restore the area";
    case THX_BAD_BLOCK:
        return "mend the number, or append slots of zeros; if the area lost its end, restore";
    case THX_BAD_SLOT:
        return "carrying out: mend the kind; a map that missed a write: build it; else restore";
    case THX_BAD_PAYLOAD:
        return "carrying out, apply: lend Compare's payload alone; else restore, or write again";
    case THX_NO_FULL_PAGE:
        return "carrying out: append places of zeros; another store's map: build it; else restore";
    case THX_SHORT_BUFFER:
        return "lend a longer buffer: 504 bytes for a payload, n / 4 rounded up for a map";
    case THX_STRAY_PAGE:
        return "after a known stop sweep, then build; else restore, and do not sweep";
    case THX_BAD_PAIR: return "build the map anew";
    default: return "take the header and the archive from one tree";
    }
}

typedef struct { uint32_t number; } thx_done;
typedef struct { uint32_t number, kind, length, entries; int32_t last; } thx_compared;
typedef struct { uint32_t number, entries; int32_t last; uint32_t offset; } thx_applied;
typedef struct { uint32_t number, kind, length; } thx_judged;
typedef struct { uint64_t at, len; } thx_part; /* patch[at .. at + len]; both 0 for an empty part */
typedef struct { uint32_t number, kind, offset; } thx_reading;
typedef struct { uint32_t number, kind, length; } thx_written;
typedef struct { uint32_t number; uint64_t block; uint32_t offset; } thx_built;
typedef struct { uint32_t number, pair; } thx_pair;
typedef struct { uint32_t number; uint64_t patch, full; } thx_tallied;
typedef struct { uint32_t number, found; uint64_t at; int32_t position; uint32_t value; } thx_entry;
typedef struct { uint32_t number; uint64_t blocks; } thx_extent; /* the highest block + 1, or 0 */

/*
 * Format: make both areas new and empty.
 *
 * Refuses, in this order: 2 if a length is wrong. Nothing else is checked; old contents do not
 * matter.
 * Writes: every byte of both areas, the headers and then zeros. Pass full_len 0 for a store without
 * a full area.
 */
THX_MUST_USE
thx_done thx_format(uint8_t *patch, size_t patch_len, uint8_t *full, size_t full_len);

/*
 * Compare: the stream of the bytes in which `page` differs from `base`, and so what the page takes
 * to be stored. Nothing is stored: thx_carry_out does that. See A WRITE IN TWO CALLS.
 *
 * Refuses, in this order: 1 if base_len is not 0 or 8,192 or page_len is not 8,192; 9 if
 * payload_len is below 504, whatever the stream's length.
 * Writes: for THX_DIFFERENCE_PATCH the first `length` bytes of `payload`; later bytes stay. For the
 * other kinds nothing.
 * Answers: kind    THX_DIFFERENCE_SAME if no byte differs, THX_DIFFERENCE_PATCH if the stream takes
 *                  at most 504 bytes, else THX_DIFFERENCE_LARGE;
 *          length  of the whole stream in bytes: 0 for SAME, 2 to 504 for PATCH, 506 to 16,384 for
 *                  LARGE;
 *          entries the number of entries in the stream, that is of bytes that differ;
 *          last    the last position that differs, -1 if there is none.
 * If it is refused, nothing is decided: kind 0 does not mean SAME then.
 */
THX_MUST_USE
thx_compared thx_compare(const uint8_t *base, size_t base_len, const uint8_t *page, size_t page_len,
                         uint8_t *payload, size_t payload_len);

/*
 * Apply: fill `page` with the base and then the payload's entries.
 *
 * Refuses, in this order: 1 if base_len is not 0 or 8,192 or page_len is not 8,192; 7 if the
 * payload is not sound. An empty payload is not sound, nor is one of more than 504 bytes.
 * Writes: all 8,192 bytes of `page`.
 * Answers: entries the number of entries applied;
 *          last    the position of the last one;
 *          offset  with 7, where the payload breaks; else 0.
 */
THX_MUST_USE
thx_applied thx_apply(const uint8_t *base, size_t base_len, const uint8_t *payload,
                      size_t payload_len, uint8_t *page, size_t page_len);

/*
 * Next: one entry of a payload. Called again and again it reads the payload through.
 *
 * `at` is the place in the payload where the entry starts, `position` the position of the entry
 * before it. A reader begins with 0 and -1. After an entry it goes on with the `at` and `position`
 * that were given back. So it gives the entries that thx_apply applies, in their order. Where
 * thx_apply gives 7 and an offset, it gives the entries before that offset and stops there.
 *
 * Answers, the first that holds:
 *   number 7, found 0   the payload is empty or has more than 504 bytes, wherever `at` is;
 *   number 0, found 0   `at` is at or past the payload's length: the end;
 *   number 7, found 0   `position` is not from -1 to 8,191;
 *   number 7, found 0   the entry at `at` is not sound: it is cut off, leaves the page, or has a
 *                       jump below 255 in the long form;
 *   number 0, found 1   an entry: `position` and `value` are its own, the next one starts at `at`.
 * Without an entry (found 0) `at` and `position` are given back as they were given, and `value` is
 * 0: the reader stands where it stood. Asked again it answers the same.
 * Writes: nothing.
 *
 * All entries of a payload, and how it came out:
 *
 *   thx_entry e = {0, 0, 0, -1, 0};
 *   do {
 *       e = thx_next(payload, payload_len, e.at, e.position);
 *       if (e.found)
 *           printf("byte %d becomes %u\n", (int)e.position, (unsigned)e.value);
 *   } while (e.found);
 *   if (e.number == THX_DONE)
 *       printf("end\n");
 *   else
 *       printf("stopped at offset %u\n", (unsigned)e.at);
 */
THX_MUST_USE
thx_entry thx_next(const uint8_t *payload, size_t payload_len, uint64_t at, int32_t position);

/*
 * Judge: whether one slot is sound. The payload's entries are not looked at.
 *
 * Refuses, in this order: 2 if slot_len is not 512; 6 if the slot is not sound.
 * Writes: nothing.
 * Answers: kind, and the payload length for THX_KIND_PATCH (0 for the others).
 */
THX_MUST_USE
thx_judged thx_judge(const uint8_t *slot, size_t slot_len);

/*
 * Show: where a block's payload lies in the patch area.
 *
 * Refuses, by an empty part (at 0, len 0), if patch_len is wrong, the patch header is wrong, the
 * block is not below n, or its slot is not a sound PATCH slot. The entries are not looked at.
 * Writes: nothing.
 * Answers: the payload is patch[at] to patch[at + len - 1].
 */
THX_MUST_USE
thx_part thx_show(const uint8_t *patch, size_t patch_len, uint64_t block);

/*
 * Read: fill `page` with a block: its base, its patched base, or its page in the full area.
 *
 * `base` is the block's page in the base, the same that its page was compared with.
 * Refuses, in this order: 1 if base_len is not 0 or 8,192 or page_len is not 8,192; 2 if the length
 * of an area is wrong; 3 or 4 for the headers; 5 if the block is not below n; 6 if its slot is not
 * sound; 8 if the slot is FULL_REF and the block is not below m; 7 if its payload is not sound.
 * Other blocks are not looked at.
 * Writes: all 8,192 bytes of `page`: the base for EMPTY, the base with the payload's entries for
 * PATCH, the page in the full area for FULL_REF.
 * Answers: kind    of the block's slot;
 *          offset  with 7, where the block's payload breaks; else 0.
 */
THX_MUST_USE
thx_reading thx_read(const uint8_t *patch, size_t patch_len, const uint8_t *full, size_t full_len,
                     uint64_t block, const uint8_t *base, size_t base_len, uint8_t *page,
                     size_t page_len);

/*
 * Carry out: store a decision, a kind with its payload or page, on a block.
 *
 * The decision is thx_compare's, as a rule: see A WRITE IN TWO CALLS, and the two mistakes there.
 * It may come from elsewhere: any sound payload is taken, also one that is no page's stream.
 * Nothing of the old block is looked at, so an old slot that is not sound is replaced as any other.
 * `kind` is THX_KIND_EMPTY, THX_KIND_PATCH or THX_KIND_FULL. The payload is looked at for PATCH
 * alone, and is all payload_len bytes; the page is looked at for FULL_REF alone. What is not looked
 * at refuses nothing, whatever its length and its bytes: NULL and 0 will do. `stores` is 0, 1 or,
 * by any other number, all. Fewer than all is a stop: see A WRITE THAT IS STOPPED.
 * Refuses, in this order: 1 if the kind is FULL_REF and page_len is not 8,192; 2 if the length of
 * an area is wrong; 3 or 4 for the headers; 5 if the block is not below n; 6 if the kind is above
 * 2; 8 if the kind is FULL_REF and the block is not below m; 7 if the kind is PATCH and the payload
 * is not sound: empty, more than 504 bytes, or not used up by sound entries. No offset is given
 * with 7.
 * Writes: the block's slot, which becomes the sound one: zeros for EMPTY, a PATCH slot with this
 * payload, or FULL_REF; and, if the block is below m, its place in the full area: the page for
 * FULL_REF, zeros otherwise. Nothing else. For FULL_REF the place comes first, else the slot. Told
 * 1, the first of them alone is written; told 0, nothing.
 * Answers: kind    stored, which is the one given;
 *          length  of the payload for PATCH; 0 for EMPTY and FULL_REF, whatever was lent.
 *          Both are the same whatever `stores` is.
 */
THX_MUST_USE
thx_written thx_carry_out(uint8_t *patch, size_t patch_len, uint8_t *full, size_t full_len,
                          uint64_t block, uint32_t kind, const uint8_t *payload,
                          size_t payload_len, const uint8_t *page, size_t page_len,
                          uint64_t stores);

/*
 * Carry out with a map: store a decision on a block, and the block's pair in `map`.
 *
 * The areas and the answer are those of thx_carry_out with as many stores, and so is what is looked
 * at. `map` is the store's own, lent to every write and every cut: see A MAP THAT IS KEPT.
 * Refuses, in this order: 1 if the kind is FULL_REF and page_len is not 8,192; 2 if the length of
 * an area is wrong; 9 if map_len is below n / 4, rounded up; 3 or 4 for the headers; 5 if the block
 * is not below n; 6 if the kind is above 2; 8 if the kind is FULL_REF and the block is not below m;
 * 7 if the kind is PATCH and the payload is not sound. No offset is given with 7.
 * Writes: what thx_carry_out writes; then, told all, the block's own pair, whatever it was:
 * THX_PAIR_EMPTY, THX_PAIR_PATCH or THX_PAIR_FULL for the kind stored. Nothing else of the map is
 * looked at or changed: other pairs, unused pairs of the last byte and later bytes stay, a 3 among
 * them too. Told 0 or 1 the whole map stays.
 * Answers: kind and length, as in thx_carry_out.
 */
THX_MUST_USE
thx_written thx_carry_out_mapped(uint8_t *patch, size_t patch_len, uint8_t *full, size_t full_len,
                                 uint8_t *map, size_t map_len, uint64_t block, uint32_t kind,
                                 const uint8_t *payload, size_t payload_len, const uint8_t *page,
                                 size_t page_len, uint64_t stores);

/*
 * Read by the map: fill `page` with a block as its pair in the map says.
 *
 * It trusts the map: with one that missed a write it can give yesterday's page, with one that
 * missed a cut, or a stop and its sweep, a page of zeros. See A MAP THAT IS KEPT. `base` is the
 * block's page in the base, the same that its page was compared with.
 * Refuses, in this order: 1 if base_len is not 0 or 8,192 or page_len is not 8,192; 2 if the length
 * of an area is wrong; 9 if map_len is below n / 4, rounded up; 3 or 4 for the headers; 5 if the
 * block is not below n; 11 if the block's own pair is 3; and then
 *   for THX_PAIR_EMPTY   nothing: neither slot nor place is looked at;
 *   for THX_PAIR_PATCH   6 if the slot is not a sound PATCH slot; 7 if its payload is not sound;
 *   for THX_PAIR_FULL    8 if the block is not below m. The slot is not looked at.
 * Other blocks and their pairs are not looked at.
 * Writes: all 8,192 bytes of `page`: the base for EMPTY, the base with the payload's entries for
 * PATCH, the block's page in the full area for FULL.
 * Answers: kind    the one that the pair stands for: 0, 1 or 2 for pair 0, 2 or 1;
 *          offset  with 7, where the block's payload breaks; else 0.
 */
THX_MUST_USE
thx_reading thx_read_mapped(const uint8_t *patch, size_t patch_len, const uint8_t *full,
                            size_t full_len, const uint8_t *map, size_t map_len, uint64_t block,
                            const uint8_t *base, size_t base_len, uint8_t *page, size_t page_len);

/*
 * Cut: drop block k and all blocks after it.
 *
 * Each of them then reads as its base. See CUTTING A TABLE SHORT.
 * Refuses, in this order: 2 if the length of an area is wrong; 3 or 4 for the headers; 5 if k is
 * above n. k may be n: then nothing changes. No slot, payload or place is looked at, so none can be
 * at fault.
 * Writes: zeros into the slots of blocks k to n - 1 and, as far as these blocks are below m, into
 * their places in the full area. Nothing else: both headers and blocks below k keep every byte.
 * Answers: the number alone.
 */
THX_MUST_USE
thx_done thx_cut(uint8_t *patch, size_t patch_len, uint8_t *full, size_t full_len, uint64_t k);

/*
 * Cut with a map: drop block k and all blocks after it, and their pairs in `map`.
 *
 * The areas are those of thx_cut. `map` is the store's own, lent to every write and every cut: see
 * A MAP THAT IS KEPT.
 * Refuses, in this order: 2 if the length of an area is wrong; 9 if map_len is below n / 4, rounded
 * up, whatever k is; 3 or 4 for the headers; 5 if k is above n. k may be n: then nothing changes.
 * No slot, payload, place or pair is looked at, so none can be at fault.
 * Writes: what thx_cut writes; and 0 into the pairs of blocks k to n - 1. Nothing else of the map
 * is changed: pairs of blocks below k, unused pairs of the last byte and later bytes stay, a 3
 * among them too.
 * Answers: the number alone.
 */
THX_MUST_USE
thx_done thx_cut_mapped(uint8_t *patch, size_t patch_len, uint8_t *full, size_t full_len,
                        uint8_t *map, size_t map_len, uint64_t k);

/*
 * Highest: up to where anything is kept.
 *
 * It is not always the length of PostgreSQL's file. See CUTTING A TABLE SHORT.
 * Refuses, in this order: 2 if patch_len is wrong; 3 or 4 for the patch header; 6 if any slot is
 * not sound, wherever it stands; no block is named. The full area is not asked for, and payloads
 * are not looked at.
 * Writes: nothing.
 * Answers: blocks, one more than the highest block whose slot is not EMPTY; 0 if all are EMPTY.
 */
THX_MUST_USE
thx_extent thx_highest(const uint8_t *patch, size_t patch_len);

/*
 * Sweep: clear up after a write that was stopped.
 *
 * Only after a known stop, and the map is built anew afterwards: see A WRITE THAT IS STOPPED. The
 * patch area is only read. Every block reads as before.
 * Refuses, in this order: 2 if the length of an area is wrong; 3 or 4 for the headers; then block
 * by block in rising order, stopping at the first fault, and for one block 6 if its slot is not
 * sound, 8 if it is FULL_REF and not below m. All n slots are checked, also where the full area is
 * absent. No payload is looked at, and a page where none should be is no fault.
 * Writes: zeros into the place of each block below m that is not FULL_REF. Nothing else: the header
 * and the places of FULL_REF blocks keep every byte. In a store that thx_build accepts nothing
 * changes, nor does it when swept again.
 * Answers: the number alone; no block is named.
 */
THX_MUST_USE
thx_done thx_sweep(const uint8_t *patch, size_t patch_len, uint8_t *full, size_t full_len);

/*
 * Build: check every block and make the block map.
 *
 * The map is as described in A MAP THAT IS KEPT.
 * Refuses, in this order: 2 if the length of an area is wrong; 9 if map_len is below n / 4, rounded
 * up; 3 or 4 for the headers; then block by block in rising order, stopping at the first fault, and
 * for one block 6 if its slot is not sound, 8 if it is FULL_REF and not below m, 7 if its payload
 * is not sound, 10 if it is not FULL_REF and its place in the full area is not all zero. After a
 * known stop 10 means that the areas are to be swept first: see A WRITE THAT IS STOPPED.
 * Writes: the first n / 4 bytes of the map, rounded up. Unused pairs of the last byte are 0; later
 * bytes stay.
 * Answers: block   the block at fault with 6, 7, 8 and 10, else 0;
 *          offset  with 7, where the payload of that block breaks; else 0.
 */
THX_MUST_USE
thx_built thx_build(const uint8_t *patch, size_t patch_len, const uint8_t *full, size_t full_len,
                    uint8_t *map, size_t map_len);

/*
 * Look up: one pair of a map of n blocks. n is that of the patch area from which the map was built.
 *
 * Refuses, in this order: 2 if n is over 131,072; 9 if map_len is below n / 4, rounded up; 5 if the
 * block is not below n; 11 if the block's own pair is 3. Other pairs are not looked at.
 * Writes: nothing.
 * Answers: pair, one of THX_PAIR_EMPTY, THX_PAIR_FULL and THX_PAIR_PATCH.
 */
THX_MUST_USE
thx_pair thx_look_up(const uint8_t *map, size_t map_len, uint64_t n, uint64_t block);

/*
 * Tally: count the PATCH and the full pairs of a map of n blocks.
 *
 * Refuses, in this order: 2 if n is over 131,072; 9 if map_len is below n / 4, rounded up; 11 if
 * one of the n pairs is 3 or an unused pair of the last byte is not 0. Bytes after that are not
 * looked at.
 * Writes: nothing.
 * Answers: patch, the number of PATCH pairs; full, the number of full pairs.
 */
THX_MUST_USE
thx_tallied thx_tally(const uint8_t *map, size_t map_len, uint64_t n);

#ifdef __cplusplus
}
#endif

#endif
