"""A case of crates/sctp_rows with `sctp-end` and stream resets (RFC 6525), as reset_cases.py and progress_cases.py have them."""

import wire
from case_of_end import OWN_TSN, Case
from wire import reconfig_chunk, reset_request, reset_response

ANSWERED = OWN_TSN - 1          # what a request of the peer says of this end's requests while there is none


class Resetting(Case):
    """A caller with three streams each way, whose peer lists RE-CONFIG."""

    streams, peer_resets = 3, True

    def __init__(self, name, options='reset', **more):
        super().__init__(name, options, **{'mode': 'data', **more})

    # ---- The peer ----

    def reconfig(self, remark, *parameters):
        return self.comes('RE-CONFIG: ' + remark, reconfig_chunk(parameters))

    def asks(self, number, last, *streams):
        said = ' '.join(map(str, streams)) or 'all'
        return self.reconfig('request %d last %d streams %s' % (number, last, said), reset_request(number, ANSWERED, last, streams))

    def responds(self, number, code):
        return self.reconfig('response %d: %d' % (number, code), reset_response(number, code))

    def message(self, tsn, number, stream=0, byte=b'a'):
        return self.comes('DATA %d on stream %d' % (tsn, stream), wire.data_chunk(False, 3, tsn, stream, number, 0, byte))

    # ---- The user ----

    def resets(self, *streams):
        for stream in streams:
            self.line('reset %d' % stream)
        return self

    def tells(self):
        return self.line('resets')

    def look(self):
        return self.line('next').line('state')
