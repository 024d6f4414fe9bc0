"""Code, serve and decode layered records of grey pictures, on numpy arrays.

SYNOPSIS
    import afshtruni

    pyramid = afshtruni.read_picture("job.pgm")       # a grey file, or an array of uint8
    record  = afshtruni.code(pyramid)                 # bytes: all of it, at full detail
    small   = afshtruni.serve(record, level=2, plane=2)   # smaller, cut out without decoding
    arrived = afshtruni.decode(record[:2000])         # of whatever came
    arrived.reached, arrived.skipped, arrived.tail, arrived.pixel_bound   # how far it got
    picture = afshtruni.write_picture(arrived, "arrived.pgm")
    picture.pixels, picture.clipped                   # an array of uint8; how many were clipped

    seals   = afshtruni.seal({"job.record": record})  # when it is written, to be signed
    verdict = afshtruni.verify(seals, small)          # before it is used
    bool(verdict), verdict.status, verdict.lines      # what `afs verify` says

DESCRIPTION
    A grey picture, or any pyramid of integer wavelet coefficients, is coded once as a record: a
    header, then parts. Each part has a plane (bit planes, counted down to 0, the finest) and a
    level (1 is the finest, N + 1 the coarsest). A smaller version is some of the parts; what
    arrives, whatever was left out or lost, is decoded as far as its parts go.

    code(pyramid)                       a pyramid's record, or a picture's: an array of uint8
    serve(record, level, plane, error)  the record of some of its parts
    join(first, second)                 the record of all parts of two
    decode(record)                      a pyramid of the parts that are there, and how far it got
    survey(record)                      what a record holds, without decoding it
    parts(record)                       its parts, one by one
    explain(record)                     what it holds and lacks, in words
    seal(records)                       the SHA-256 of every part, as a text that can be signed
    verify(seals, record, name)         whether what arrived is as it was sealed
    read_picture(picture)               a picture's pyramid
    write_picture(pyramid, file)        a pyramid's picture

    Arrays are rows by columns. A picture is of uint8. A pyramid is of int32; on the way in any
    other integer type will do, and uint8 within a `Pyramid`. numpy takes pyramids and pictures as
    arrays. A record is `bytes`; on the way in anything that holds a row of bytes will do, a numpy
    array of uint8 too. What can be changed is copied before a call, so arrays needn't be
    contiguous, nothing that is handed in is ever written to, and threads may call at once.

    The calls are those of libafshtruni, in which every function is proved to meet its contract, to
    end and never to go wrong; this package, numpy and Python are not proved. A record has no
    checksum: what `decode` tells may be false of one in which a byte was changed. A seal shows it.

ERRORS
    Refusal (a ValueError)  the library refused: `number`, `name` and `place`, as in afshtruni(3),
                            and `why`, in the words of afs(1)
    TypeError, ValueError   an argument that the library can't be given: no array, an array of
                            another type, another number of dimensions
    OSError                 the library, or a file, can't be read or written
    NotImplementedError     the library is older than the call
    Note (a warning)        what `afs` notes beside a picture

ENVIRONMENT
    AFSHTRUNI_LIBRARY  the file of the shared library, where it isn't the one that this package was
                       installed with, or that of the source tree, build/libafshtruni.so

SEE ALSO
    afshtruni.numcodecs, a codec for zarr; afshtruni.imageio, a format for imageio; afs(1),
    afshtruni(3)
"""

from __future__ import annotations

from ._explaining import explain
from ._notes import Note
from ._pictures import read_picture, write_picture
from ._place import VERSION as __version__
from ._records import code, decode, join, parts, serve, survey
from ._refusal import Refusal
from ._sealing import Verdict, seal, verify
from ._values import Decoded, Part, Picture, Pyramid, Survey

__all__ = [
    "Decoded",
    "Note",
    "Part",
    "Picture",
    "Pyramid",
    "Refusal",
    "Survey",
    "Verdict",
    "__version__",
    "code",
    "decode",
    "explain",
    "join",
    "parts",
    "read_picture",
    "seal",
    "serve",
    "survey",
    "verify",
    "write_picture",
]
