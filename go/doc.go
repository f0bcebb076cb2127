// Package octseq has safe calls of the octseq library: well-formed UTF-8, lossy texts, DNS and BGP messages, MRT files.
//
// What a call answers is computed by a C library whose calls are proved to return and to answer what octseq.h says, for
// all octets. What is in this package isn't proved: it turns slices into pointers and lengths, and statuses into
// errors.
//
// Nothing may write to a slice while a call reads it. No call keeps a slice that it was given, and none that it returns
// is used again: a message, a name, data and a record have octets of their own.
package octseq
