#!/bin/sh
# The two closings of tests/model/closing.py with usrsctp as the peer of sctp-end, in virtual time, with and without standard-closing: (1) usrsctp
# shuts while a megabyte of the end's is queued, 50 ms each way, packets lost; (2) the end shuts with 450 messages of usrsctp's to come over
# 8 kbit/s, nothing lost. It prints when each end was closed, how, and how many messages were lost. To be run by hand, sctp-end built:
#   tests/usrsctp.sh                 five seeds of (1), 10 percent lost, and (2): some twenty seconds
#   tests/usrsctp.sh --model 7 8     the Python model in place of sctp-end; these seeds
#   tests/usrsctp.sh --lost 5 --buffer 65536    5 percent lost; so large a receive buffer of usrsctp's, 262,144 bytes else
#   tests/usrsctp.sh --figures fast-retransmit rto-min 100    1,000 messages without a limit of the rate and over 10 Mbit/s, with these words
#                                    of sctp-end or none: how long they take, beside usrsctp and what is wanted (figures.py): some minutes
#   tests/usrsctp.sh --figures --buffer 1317012 --chunks 1048576    likewise, and usrsctp has room for all messages after a missing one
#   tests/usrsctp.sh --shares congestion-control    two associations through one queue, 120 s (shares.py): some ten minutes
#   tests/usrsctp.sh --streams       fifty streams, reset again and again by the endpoint, by usrsctp and by both, 10 percent lost,
#                                    and as channels that either closes (streams.py): a minute; --lost 5 --seeds 8 --first 9 likewise
#   tests/usrsctp.sh --again         three streams that the endpoint resets again with nothing sent between: each second request names its first twice
#                                    (again.py): some seconds
#   tests/usrsctp.sh --figures --model, --program PATH    the model, or this program, in place of sctp-end
# Without libusrsctp the figures and shares have the model as the receiver. Status of these and of the streams: 0 if all is as wanted, 1 if not,
# 3 as below. Of the closings:
# 0: with standard-closing all completed, no message was lost, and the middle run of (1) closed within 15 s. 1: not so, and the last line
# says what. 2: libusrsctp isn't installed (Debian: libusrsctp-dev), and one line says so. 3: sctp-end isn't built, or something failed.
# It needs a C compiler and Python.

root=$(CDPATH='' cd -- "$(dirname -- "$0")/.." && pwd -P) || exit 3
room=$(mktemp -d) || exit 3
trap 'rm -rf -- "$room"' EXIT
trap 'exit 130' HUP INT TERM
command -v cc >"$room/said" || { echo 'tests/usrsctp.sh: there is no C compiler, cc' >&2; exit 3; }
echo '#include <usrsctp.h>' >"$room/look.c"
echo 'int main(void) { return usrsctp_finish(); }' >>"$room/look.c"
script=exchanges.py
case ${1-} in
--figures | --shares | --streams | --again) script=${1#--}.py; shift ;;
esac
peer=$room/peer
if cc -o "$room/look" "$room/look.c" -lusrsctp 2>"$room/said"; then
    cc -std=gnu11 -O2 -Wall -Wextra -o "$peer" "$root/tests/usrsctp/peer.c" -lusrsctp || exit 3
elif [ $script = exchanges.py ] || [ $script = streams.py ] || [ $script = again.py ]; then
    echo "libusrsctp isn't installed: nothing was run"
    exit 2
else
    echo "libusrsctp isn't installed: the model receives"
    peer=-
fi
case " $* " in
*' --model '* | *' --program '*) ;;
*) "$root/sctp-end" caller 1500 1400 65536 1 data 5000 5001 </dev/null || exit 3 ;;
esac
python3 -B "$root/tests/usrsctp/$script" "$peer" "$@"
