# simulate-periods.awk: the document of two tasks whose deadlines are their periods, as a trace would give it, of any length.
#
#   awk -v seed=1 -v minutes=60 -v runs=runs.txt -v truth=truth.txt -f simulate-periods.awk > jobs.txt
#   cat points.txt jobs.txt runs.txt > long.txt
#
# A decoder has a job each 16.667 ms, and an audio thread each 10 ms: 576,000 jobs in an hour. A window ends where the next one of its task
# begins, and the decoder's wake-up comes a unit later where both would come at once. So a window is always open. At each begin and end of a
# job the governor takes the least of five frequencies that is fast enough for the works that are left, each spread over the rest of its
# window, or, at one time in four, a higher one. The earliest deadline runs first. The generator is that of yds_cli trial, so a seed means the same in each awk.
#
# Output: comments and `job` lines, in units of 10 us and 10 MHz; `ticks` and `run` lines go to the file `runs`. `truth` gets the time at each
# speed, by the simulator's own account.

function draw(n) {
    state = (1664525 * state + 1013904223) % 4294967296
    return int(state / 65536) % n
}
# The k-th begin of the decoder or the audio thread.
function begin_of(who, k,    time) {
    time = who == 1 ? int(k * 16667 / 10) : 1000 * k
    return time + (who == 1 && time % 1000 == 0)
}
# A job begins, if its window ends within the minutes.
function release(who) {
    last[who] = begin_of(who, ++count[who])
    if (last[who] > end) return
    left[who] = who == 1 ? 35000 + 2 * draw(40000) : 10000 + draw(50000)
    work[who] = 0
    place[who] = ++released
    line[released] = "job " name[who] "." count[who] - 1 " " now " " last[who] " "
}
# Jobs are written in the order of their begins, each when those before it have ended.
function end_job(who) {
    done[place[who]] = work[who]
    left[who] = 0
    while ((written + 1) in done) {
        print line[++written] done[written]
        delete line[written]
        delete done[written]
    }
}
# The speed that the governor takes: what is left may take two units less than there are, since a run ends at a whole unit.
function choose(    who, needed, i, units) {
    for (who = 1; who <= 2; who++) {
        units = last[who] - now - 2
        if (left[who] > 0) needed += left[who] / (units > 1 ? units : 1)
    }
    for (i = 1; i < 5 && frequency[i] < needed; i++);
    if (i < 5 && draw(4) == 0) i++
    return i
}
function run(who, until,    speed, length_) {
    speed = frequency[chosen]
    length_ = int((left[who] + speed - 1) / speed)
    if (now + length_ > until) length_ = until - now
    if (length_ <= 0) { now = until; return }
    print "run " name[who] "." count[who] - 1, now, now + length_, speed > runs
    time_at[chosen] += length_
    work[who] += speed * length_
    left[who] -= speed * length_
    now += length_
    if (left[who] <= 0) end_job(who)
}
BEGIN {
    state = seed
    if (truth == "") truth = "/dev/null"
    if (runs == "") runs = "/dev/null"
    split("60 82 101 120 142", frequency, " ")
    name[1] = "decode"; name[2] = "audio"
    print "# time unit 10 us, speed unit 10000 kHz"
    print "ticks 1" > runs
    end = minutes * 6000000
    for (now = 0; now < end; ) {
        for (who = 1; who <= 2; who++) if (now == begin_of(who, count[who])) release(who)
        next_begin = begin_of(1, count[1]) < begin_of(2, count[2]) ? begin_of(1, count[1]) : begin_of(2, count[2])
        while (now < next_begin) {
            if (left[1] <= 0 && left[2] <= 0) { now = next_begin; break }
            chosen = choose()
            who = left[1] > 0 && (left[2] <= 0 || last[1] <= last[2]) ? 1 : 2
            run(who, next_begin)
        }
    }
    for (i = 1; i <= 5; i++) print "time", frequency[i], time_at[i] + 0 > truth
}
