"""Receive buffers that are full, of either side."""

from association import clock, need, opened
from trial import Talk, retransmitted, trial


def linux_waits(kernel, **options):
    """Its program doesn't read for 3 s, while the endpoint sends 1,000 messages of 2,000 bytes; its buffer has 212,992."""
    association = opened(kernel, 'data', streams=10, first=['rcvbuf 106496'], **options)
    talk = Talk(association)
    kernel.tell('read 0')
    for number in range(1000):
        talk.from_endpoint(number, number % 10, 2000)
    association.run(3)
    kernel.tell('read 1')
    took = talk.wait(240)
    association.close()
    return 'all there %.1f s after it reads again, %s' % (took, retransmitted(association))


for name, options in (('no option', {}), ('congestion control', dict(congestion_control=True))):
    trial('Linux\' program doesn\'t read for 3 s, %s' % name, **options)(linux_waits)


@trial('the endpoint\'s user takes each 100 ms, buffer 131,072')
def slow_user(kernel, length=20000, messages=100, pause=0.1):
    association = opened(kernel, 'data', streams=10, buffer=131072, congestion_control=True)
    kernel.tell('say 0 %d %d 0 0 0' % (length, messages))
    began = clock()
    while len(association.taken) < messages and clock() - began < 150:
        association.takes = False
        association.run(pause)
        association.takes = True
        association.turn(clock())
    took = clock() - began
    need(len(association.taken) == messages, len(association.taken), 'of', messages, association.seen)
    association.close()
    return '%.2f Mbit/s; a buffer each time would be %.2f' % (length * messages * 8e-6 / took, 131072 * 8e-6 / pause)


def pause(kernel, seconds):
    association = opened(kernel, 'data', streams=1, buffer=65536)
    association.takes = False
    kernel.tell('say 0 5000 60 0 0 0')
    association.run(seconds)
    held, association.takes = association.status().held_bytes, True
    association.turn(clock())
    began, first = clock(), len(association.taken)
    need(association.run(130, lambda: len(association.taken) > first), 'nothing more:', association.seen)
    woke = clock() - began
    need(association.run(90, lambda: len(association.taken) == 60), len(association.taken), 'of 60', association.seen)
    association.close()
    return '%d bytes were held; the next message arrived %.2f s after the buffer was empty' % (held, woke)


for seconds in (3, 10):
    trial('the endpoint\'s user takes nothing for %d s, buffer 65,536' % seconds, seconds=seconds)(pause)
