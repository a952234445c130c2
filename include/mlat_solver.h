/* The functions that Jifrosk's library opens to callers. Each takes every value and keeps no state: any number of calls
   may run side by side. What a comment promises is proved of the code; `double` is IEEE 754's binary64. All
   not-a-numbers count as one value.

   Pointers. One with a length lends that many entries (bytes, doubles, uint64_t or structs), one to an array with its
   size in brackets lends that array, any other one value. What is lent can be read, or written where it is not const,
   for the whole of the call, and is aligned as its type asks; what a call writes overlaps nothing else that is lent to
   it. Where a length is 0 nothing is read or written, and the pointer may be NULL (that was tried, and is not proved).
   No call keeps a pointer. */
#ifndef MLAT_SOLVER_H
#define MLAT_SOLVER_H

#include <stddef.h>
#include <stdint.h>

#ifdef __cplusplus
extern "C" {
#endif

/* ---- version */

/* The version of this header: three numbers, and all as one, which orders versions: MAJOR * 1,000,000 + MINOR * 1,000 +
   PATCH. */
#define MLAT_VERSION_MAJOR 0
#define MLAT_VERSION_MINOR 3
#define MLAT_VERSION_PATCH 0
#define MLAT_VERSION (MLAT_VERSION_MAJOR * 1000000 + MLAT_VERSION_MINOR * 1000 + MLAT_VERSION_PATCH)

/* The version of the library that is linked or loaded, in the form of MLAT_VERSION; 0.2.0 and before have no such
   function. A library has all that this header has where its major version is the same and its number no less:
       mlat_version() / 1000000 == MLAT_VERSION_MAJOR && mlat_version() >= MLAT_VERSION
   The preprocessor takes MLAT_VERSION too: #if MLAT_VERSION >= 3000. */
uint32_t mlat_version(void);

/* ---- answers */

/* What a call answers: 0, or why it gives nothing (docs/GUIDE.md says what to do about each). Document 01 has 1 to 15,
   document 02 16 to 24; the list is crates/refusals. */
enum mlat_refusal {
    MLAT_ANSWERED = 0, /* a fix, or a call that did what it was asked for */
    MLAT_TOO_FEW = 1,
    MLAT_NO_CONVERGENCE = 2,
    MLAT_OUT_OF_RANGE = 3,
    MLAT_NO_FIXED_POINT = 4,
    MLAT_INCONSISTENT = 5,
    MLAT_SINGULAR = 6,
    MLAT_UNCOVERED = 7,
    MLAT_AMBIGUOUS = 8,
    MLAT_UNCERTAIN = 9,
    MLAT_TOO_MANY = 10,
    MLAT_DISORDER = 11,
    MLAT_BAD_FIELD = 12,
    MLAT_CLOCK_SIZE = 13,
    MLAT_SHORT_OUTPUT = 14,
    MLAT_TORN_INPUT = 15,
    MLAT_TORN_FILE = 16,
    MLAT_NO_SUCH_PLACE = 17,
    MLAT_MALFORMED_RECORD = 18,
    MLAT_BEYOND_THE_WIRE = 19,
    MLAT_UNEQUAL_MIRROR = 20,
    MLAT_WRONG_SIZE = 21,
    MLAT_BAD_QUERY = 22,
    MLAT_BEYOND_THE_ITEMS = 23,
    MLAT_OVER_SIX = 24
};

/* ---- numbers */

/* The binary64 nearest the exact square root, ties to even. -0 gives -0, any other negative number a not-a-number,
   infinity infinity. */
double mlat_sqrt(double x);

/* The nearest whole number, a half away from zero, with the sign of x. Infinities and not-a-numbers pass. */
double mlat_round(double x);

/* Sine and cosine of an angle within 7 radians either way, by the steps of fdlibm 5.3: from -1 to 1, ends included.
   A not-a-number for any other angle. */
double mlat_sin(double x);
double mlat_cos(double x);

/* Both together: pair[0] is the sine and pair[1] the cosine. */
void mlat_sincos(double x, double pair[2]);

/* The angle of the point (x, y) from the x axis, and the length of (x, y), by the steps of fdlibm 5.3. */
double mlat_atan2(double y, double x);
double mlat_hypot(double x, double y);

/* ---- geodesy */

/* WGS 84: latitude and longitude in degrees and height above the ellipsoid in metres, geodetic[0] to [2], to
   Earth-centred Earth-fixed metres, and back. Each entry of the array that is written is what geo.rs gives with
   fdlibm's functions, to the bit. Every finite point has a latitude and a longitude but the centre of the earth, 0, 0,
   0: its latitude is a not-a-number. */
void mlat_to_ecef(const double geodetic[3], double ecef[3]);
void mlat_from_ecef(const double ecef[3], double geodetic[3]);

/* The unit vectors east, north and up at a latitude and longitude, degrees, in ECEF: three after three. Each entry
   lies from -1 to 1, ends included, for a latitude within 90 and a longitude within 180 either way, and at the place
   that mlat_from_ecef gives of any finite point but the centre of the earth. */
void mlat_enu_basis(double lat_deg, double lon_deg, double basis[9]);

/* ECEF metres to whole millimetres: a half away from zero, beyond an end of int64_t that end, 0 for a not-a-number;
   and back, by one division. */
void mlat_to_mm(const double ecef[3], int64_t mm[3]);
void mlat_from_mm(const int64_t mm[3], double ecef[3]);

/* ---- claims: what a fix claims of itself */

/* The chi-square value that the residuals of an exact optimum with dof degrees of freedom may reach, by the steps of
   solve.rs; 0 for a dof of 0. */
double mlat_chi2_limit(uint32_t dof);

/* A covariance in ECEF, three rows of three one after the other, in the local east, north, up frame at a position (as
   geodetic[3] above); and the standard deviation of the horizontal position, metres: the root of half the sum of the
   variances of east and north. By the steps of solve.rs. */
void mlat_enu_covariance(const double position[3], const double covariance[9], double enu[9]);
double mlat_horizontal_sigma_m(const double position[3], const double covariance[9]);

/* ---- solve */

/* Which of the inputs clock, altitude and reference there are: the bits of `present`. Further bits mean nothing. */
enum mlat_present {
    MLAT_CLOCK = 1,
    MLAT_ALTITUDE = 2,
    MLAT_REFERENCE = 4
};

/* The bytes of a fix record. */
#define MLAT_RECORD_BYTES 176

/* A fix record on a little-endian machine: memcpy of its 176 bytes fills it. A refusal's has its number, detail and,
   for 1 to 9, n, and zeros. */
struct mlat_record {
    uint32_t answer;         /* enum mlat_refusal */
    uint32_t detail;         /* of a fix its degrees of freedom */
    uint32_t n;              /* receptions considered */
    uint32_t used;           /* bit i for reception i, from 0 */
    double ecef_m[3];
    double t_m;              /* time of transmission, metres of light */
    double lat_deg, lon_deg; /* WGS 84 */
    double height_m;         /* above the ellipsoid */
    int64_t transmit_ps;
    double covariance_m2[9]; /* of the ECEF place, by rows */
    double chi2;
    uint16_t version;        /* 8 */
    uint8_t altitude_kind;   /* 0 none, 1 barometric, 2 GNSS */
    uint8_t filler[5];       /* zero */
    double altitude_m;       /* as it was given */
};

/* It has no padding: this does not compile where it has. */
typedef char mlat_record_is_176_bytes[sizeof(struct mlat_record) == MLAT_RECORD_BYTES ? 1 : -1];

/* Solves one transmission's problem from the bytes of the four files, receptions, clock, altitude and reference, each
   with its length, and writes the record at the start of out. `present` says which of the last three there are: what
   the bytes of an absent one are does not matter. Returns the answer number: 0 for a fix, 1 to 15 for a refusal. For
   14, where out_len is under 176, nothing is written; bytes past 176 never change. Answer and bytes are what the
   definition gives for every input; the record of a problem (none of 7 and 10 to 15) is that of the one answer of
   which demand 3 holds (crates/rounds/specs/Demand.antt). Every double of a fix but chi2 is finite, and chi2 is not
   below 0; where chi2 is finite too, the record is taken by mlat_read_record, mlat_to_archive and mlat_to_wire, and the
   numbers of the last by mlat_to_asterix. The altitude's 16 bytes are its kind, 1 barometric or 2
   GNSS; three zero bytes; an int32_t, what a station adds to barometric metres, in centimetres, within 100,000 either
   way and 0 for GNSS; and the metres, a double, within 100,000 either way. The solve takes metres + correction / 100,
   and the metres themselves where the correction is 0; the record shows the metres as given. Any other altitude is
   MLAT_BAD_FIELD with a detail of 200. */
uint32_t mlat_solve(const uint8_t *receptions, size_t receptions_len, const uint8_t *clock, size_t clock_len,
                    const uint8_t *altitude, size_t altitude_len, const uint8_t *reference, size_t reference_len,
                    uint32_t present, uint8_t *out, size_t out_len);

/* A reception of a caller's own list, as C lays it out: 136 bytes, of which the four after epoch are padding and may
   hold anything. In receptions.bin a reception has 132 bytes, the same fields in the same order without padding, so
   the file is no list: it has to be unpacked. receiver, epoch, timestamp and message are its identity, `ObservationId`
   of the source. Identities are ordered by these four in turn, the bytes of receiver and message as unsigned from the
   first, epoch and timestamp as numbers; they are equal where every field is. Ties between receptions are decided by
   their places in the list, and so by their identities. */
struct mlat_reception {
    uint8_t receiver[32]; /* key of the receiver */
    uint32_t epoch;       /* epoch of its counter */
    uint64_t timestamp;   /* its counter */
    uint8_t message[32];  /* hash of the message; the identity is above that of the reception before */
    int64_t time;         /* ps, 0 to 10^13 */
    int64_t site_mm[3];   /* ECEF, each within 10^10 either way */
    double z;             /* arrival, metres of light, 0 to 3*10^9 */
    double noise_m2;      /* 10^-6 to 10^12 */
    uint64_t filler;      /* zero: any other value is refused, as in the file */
};

/* The same solve with a list of receptions_len structs in place of the bytes of receptions: answer and bytes are what
   the same definition gives for the list, and demand 3 holds of them likewise. A list is never torn; of one over 32
   nothing is read. */
uint32_t mlat_solve_receptions(const struct mlat_reception *receptions, size_t receptions_len, const uint8_t *clock,
                               size_t clock_len, const uint8_t *altitude, size_t altitude_len,
                               const uint8_t *reference, size_t reference_len, uint32_t present, uint8_t *out,
                               size_t out_len);

/* ---- states: why a receiver is missing from a fix */

/* Solves the problem of the same inputs as mlat_solve does, and writes into states, for each reception of a solved
   problem, in input order, 20 bytes, little-endian: u32 state (1 used, 2 removed by the screen, 3 left out), u32 turn
   of the removal, from 1, u32 clash count in that turn, f64 normalised residual, zero bytes where a state has none.
   Used are the receptions of the record's mask, with a residual of at most 5 at its ECEF and T; left out are those
   that the screen keeps and the fix does not use, with one above 5. Exactly one state holds of each reception, by the
   solve's own definitions, and that one is given (crates/why/specs/Meaning.antt). Returns the answer number of
   mlat_solve on the same inputs. MLAT_SHORT_OUTPUT where states_len is under 640, before anything else is looked at:
   then *detail stays. For every other answer *detail gets bytes 4 to 7 of the record that mlat_solve writes: the
   degrees of freedom of a fix, a refusal's detail. A refusal leaves states as it was, and the bytes past the last
   state never change. */
uint32_t mlat_why(const uint8_t *receptions, size_t receptions_len, const uint8_t *clock, size_t clock_len,
                  const uint8_t *altitude, size_t altitude_len, const uint8_t *reference, size_t reference_len,
                  uint32_t present, uint8_t *states, size_t states_len, uint32_t *detail);

/* ---- streams: problems one after the other as bytes

   A problem of a stream is 16 bytes, the lengths in bytes of its receptions, clock, altitude and reference, uint32_t
   each, little-endian, and then the bytes of those inputs, in this order. MLAT_ABSENT in the place of a length marks an
   input that is absent: it has no bytes, and absent receptions are empty ones. There is no header: the next problem
   begins where one ends. */
#define MLAT_ABSENT 0xFFFFFFFFu

/* Solves the first problem of a stream and writes its record at the start of out, as mlat_solve does for the problem's
   inputs, whatever follows them; *used becomes the number of bytes that the problem takes, 16 or more: there the next
   one begins. Returns the answer number of mlat_solve. MLAT_SHORT_OUTPUT where out_len is under 176, before anything
   else is looked at; then MLAT_TORN_FILE exactly where the stream ends within its first problem, as an empty one does.
   For these two out and *used stay as they were, and bytes of out past 176 never change. */
uint32_t mlat_solve_next(const uint8_t *stream, size_t stream_len, uint8_t *out, size_t out_len, uint64_t *used);

/* Of the lengths of a problem's four inputs, or MLAT_ABSENT, how much of the start of each is enough: a problem of
   these starts gets the same answer and record. At most 4,356 bytes of receptions (33 whole ones, or one byte fewer
   where they are no whole ones), 8,193 of the clock, 17 of the altitude and 9 of the reference: so a stream of any
   lengths is read in 12,591 bytes, and what is cut off is passed over. */
void mlat_cut_lengths(const uint32_t lengths[4], uint32_t cut[4]);

/* ---- records: fix records read back */

/* Where the record at a place of a file, counted from 0, begins: *at becomes 176 * place, an offset into the caller's
   own file, whose 176 bytes from there on are the record. Returns 0; MLAT_TORN_FILE where file_len is not a multiple
   of 176, before the place is looked at; MLAT_NO_SUCH_PLACE where the file ends before the place. A refusal leaves
   *at as it was. */
uint32_t mlat_record_at(const uint8_t *file, size_t file_len, uint64_t place, uint64_t *at);

/* Takes a record apart. words: answer, detail, n, used mask, version, altitude kind (0 none, 1 barometric, 2 GNSS).
   numbers: ECEF 0 to 2, T 3, latitude 4, longitude 5, height 6, covariance 7 to 15 by rows, chi2 16, altitude metres
   17. *transmit_ps: the transmit time. Of a refusal's record version, kind, mask, the time and every number are 0.
   Returns 0; MLAT_TORN_FILE where record_len is not 176; MLAT_MALFORMED_RECORD where a rule is broken: the answer is
   0 to 13 or 15, n at most 32, fillers and unused fields are zero (n too, from 10 on; the metres where there is no
   altitude); a fix has version 8, a kind of 0 to 2, finite floats, a mask within n and a detail equal to its dof; a
   refusal's detail is at most 3 for 1, 1 to 31 for 11, 0 to 31, 100 to 131 or 200 for 12, and 0 otherwise. A refusal
   leaves words, numbers and *transmit_ps as they were. */
uint32_t mlat_read_record(const uint8_t *record, size_t record_len, uint32_t words[6], double numbers[18],
                          int64_t *transmit_ps);

/* Puts a record together again in the first 176 bytes of out: what was read gives its bytes, and reading those gives
   the same words, numbers and time. Returns 0; MLAT_SHORT_OUTPUT where out_len is under 176; then
   MLAT_MALFORMED_RECORD for whatever mlat_read_record could not have given. A refusal leaves out as it was, and bytes
   past 176 never change. */
uint32_t mlat_write_record(const uint32_t words[6], const double numbers[18], int64_t transmit_ps, uint8_t *out,
                           size_t out_len);

/* ---- positions: as the wire writes them */

/* The position of the fix in a record, as whole numbers: wire[0] latitude and wire[1] longitude in 10^-7 degree,
   wire[2] height in millimetres. Each is the whole number nearest the exact value of the record's float, at most half
   a unit away, and of two as near the one farther from zero: 2^-8 degree is 39063, -2^-8 degree -39063. Returns 0;
   what mlat_read_record gives where it refuses the record; then MLAT_BEYOND_THE_WIRE where the record holds no fix, or
   its latitude is beyond 90 degrees either way, its longitude beyond 180 or its height outside -1,500 to 25,000 m,
   before rounding and the ends included. A refusal leaves wire as it was. */
uint32_t mlat_to_wire(const uint8_t *record, size_t record_len, int32_t wire[3]);

/* The way back, by one division each: position[0] latitude and position[1] longitude in degrees, position[2] height in
   metres. What is written again is the same three whole numbers. Returns 0; MLAT_BEYOND_THE_WIRE where one is beyond
   the same limits, and then position stays as it was. Whatever mlat_to_wire writes is read back. */
uint32_t mlat_from_wire(const int32_t wire[3], double position[3]);

/* ---- archives: fix records with six covariance entries for nine */

/* Moves a record of 176 bytes to the archive's form, in the first 152 bytes of out: bytes 0 to 79, the covariance's
   entries on and right of the diagonal by rows, and the last 24 bytes. Returns 0; MLAT_SHORT_OUTPUT where out_len is
   under 152; then what mlat_read_record gives the record, MLAT_TORN_FILE or MLAT_MALFORMED_RECORD; then
   MLAT_UNEQUAL_MIRROR where an entry and its mirror differ in a bit, as 0 and -0 do. Every refusal that mlat_solve
   writes, and every fix of its with finite numbers, gets 0. mlat_from_archive gives the same 176 bytes again. A
   refusal leaves out as it was, and bytes past 152 never change. */
uint32_t mlat_to_archive(const uint8_t *record, size_t record_len, uint8_t *out, size_t out_len);

/* Moves a record of 152 bytes back, to the first 176 bytes of out: its old form, in which each entry left of the
   diagonal is its mirror. Returns 0; MLAT_SHORT_OUTPUT where out_len is under 176; then MLAT_TORN_FILE where
   record_len is not 152; then MLAT_MALFORMED_RECORD where mlat_read_record turns the old form away. mlat_to_archive
   gives the same 152 bytes again. A refusal leaves out as it was, and bytes past 176 never change. */
uint32_t mlat_from_archive(const uint8_t *record, size_t record_len, uint8_t *out, size_t out_len);

/* ---- matrices: the remaining calculations of linalg.rs */

/* A matrix is n rows of n numbers one after the other, n from 0 to 32; lengths are numbers of doubles. Each result has
   the bits of linalg.rs, in its order of sums, each sum from plus zero. Each call returns 0 and writes all of out; or
   MLAT_WRONG_SIZE where n or width is over 32 or a length does not match, which is tested before any number is read,
   and then out stays as it was. */

/* a * inner * a for a symmetric a (n * n entries each, out too): the covariance inner carried through the linear map
   a. The result is symmetric to the bit, whatever a and inner hold. */
uint32_t mlat_sandwich(size_t n, const double *a, size_t a_len, const double *inner, size_t inner_len, double *out,
                       size_t out_len);

/* R with L R = Q: l is a factor (n * n), q and out are n rows of width numbers, width from 0 to 32. An entry of l left
   of the diagonal that equals 0, of either sign, is passed over: what stands in its row of q does not show through it.
   */
uint32_t mlat_forward_rows(size_t n, size_t width, const double *l, size_t l_len, const double *q, size_t q_len,
                           double *out, size_t out_len);

/* The inverse of the matrix with the factor l (n * n, out too), as the product of the factor's inverse, transposed,
   and itself. Symmetric to the bit, for every factor and for any numbers in its place. */
uint32_t mlat_inverse_triangular(size_t n, const double *l, size_t l_len, double *out, size_t out_len);

/* The diagonal of that inverse alone: out has n entries, each with the bits that mlat_inverse_triangular gives there.
   */
uint32_t mlat_inverse_diagonal(size_t n, const double *l, size_t l_len, double *out, size_t out_len);

/* The Cholesky factor L of a (n * n, out too), lower triangular, a = L * L transposed. Of a the entries on and left of
   the diagonal are read alone; right of its diagonal the factor has plus zeros. Returns also MLAT_SINGULAR where a
   pivot is not above 0 or is not a number, and then out stays as it was. */
uint32_t mlat_cholesky(size_t n, const double *a, size_t a_len, double *out, size_t out_len);

/* ---- nearby: the fixes of a file near a place

   A file is whole records of 176 bytes, one after the other; a place counts its records from 0. Its refused solves are
   passed over. The distance of a fix is the root of the sum of the squares of its ECEF position less the point, in
   doubles, each step rounded, the sum from the left. It is never a not-a-number, and may be infinite. */

/* The places of the fixes at most radius metres from the point, ascending, in the first entries of places, each once
   and no other place; how many they are in *count. Entries past them stay. Returns 0; MLAT_SHORT_OUTPUT where
   places_len is under file_len / 176, rounded down; then MLAT_TORN_FILE where the file is not whole records,
   MLAT_MALFORMED_RECORD where mlat_read_record turns a record of it away, and MLAT_BAD_QUERY where the radius or a
   coordinate is not finite or beyond 10^8 in size, or the radius is negative (-0 is not). A refusal leaves places and
   count as they were. */
uint32_t mlat_within(const uint8_t *file, size_t file_len, const double point[3], double radius, uint64_t *places,
                     size_t places_len, uint64_t *count);

/* The place of the fix nearest to the point, the earliest of several at that distance; UINT64_MAX exactly where the
   file has no fix. Returns 0, MLAT_TORN_FILE, MLAT_MALFORMED_RECORD or MLAT_BAD_QUERY, tested in this order; a refusal
   leaves *place as it was. */
uint32_t mlat_nearest(const uint8_t *file, size_t file_len, const double point[3], uint64_t *place);

/* ---- displays: items I020/041 and I020/105 of Eurocontrol's category 020, ten bytes */

/* Writes the wire's numbers (mlat_to_wire) as the ten bytes of the two items, big-endian two's complement: latitude
   and longitude, 32 bits each, the nearest multiples of 180/2^25 degree; height, 16 bits, the nearest multiple of 6.25
   ft, 1,905 mm. No number of the wire lies halfway between two. Latitude 90 degrees is 01 00 00 00; a longitude that
   comes to 180 degrees is that of -180, FE 00 00 00. What is written has latitude within 2^24 either way and longitude
   from -2^25 to 2^25 - 1. Returns 0; MLAT_BEYOND_THE_ITEMS where out_len is not 10, latitude is beyond 90 degrees
   either way, longitude beyond 180, or the height's multiple outside 16 bits (-62,423,992 to 62,422,087 mm fit), and
   then out stays as it was. */
uint32_t mlat_to_asterix(const int32_t wire[3], uint8_t *out, size_t out_len);

/* The three multiples of whichever ten bytes: multiples[0] latitude and multiples[1] longitude in 180/2^25 degree,
   multiples[2] height in 6.25 ft. No place is tested. Returns 0; MLAT_BEYOND_THE_ITEMS where items_len is not 10, and
   then multiples stays as it was. mlat_write_asterix gives the same ten bytes again. */
uint32_t mlat_read_asterix(const uint8_t *items, size_t items_len, int32_t multiples[3]);

/* Writes three multiples as the ten bytes. No place is tested. Returns 0; MLAT_BEYOND_THE_ITEMS where out_len is not
   10 or multiples[2] is outside 16 bits, and then out stays as it was. mlat_read_asterix gives the same three again.
   */
uint32_t mlat_write_asterix(const int32_t multiples[3], uint8_t *out, size_t out_len);

/* ---- planning: what the screen does to small sets of receptions */

/* Of all patterns of failing pairs that this many receptions can have, 2 to the number of pairs, counts[k] leave k
   survivors, each pattern counted once. They add up to all patterns; counts past the number of receptions are 0, and
   so is counts[0] where there is a reception. Three receptions have 8 patterns: one leaves 1, six leave 2, one leaves
   3. Returns 0; MLAT_OVER_SIX over six receptions, and then counts stays as it was. Six take some milliseconds. */
uint32_t mlat_clash_patterns(uint32_t receptions, uint64_t counts[7]);

#ifdef __cplusplus
}
#endif

#endif
