#!/bin/sh
# two-machines.sh: two machines to try with, alpha and beta: two sshd of this machine that listen at 127.0.0.1 alone.
#
#   sh two-machines.sh COMMAND [WORD ..]
#
# What runs there has the PATH of this shell and an empty home folder. Runs COMMAND with MACHINES in its environment, a folder that has:
#   ssh           the way to them: `$MACHINES/ssh alpha true`, `PARALLEL_SSH=$MACHINES/ssh parallel -S 2/alpha,2/beta ..`
#   fail          `$MACHINES/fail beta` ends its sshd and what runs there, as a machine that fails
#   start         `$MACHINES/start beta` starts it again; each ends by itself after ten minutes
# The keys are made for this and thrown away. When COMMAND ends, or at a signal, both sshd are ended. As root it needs the folder /run/sshd,
# which it makes, and takes away again, where it isn't there.
#
# Exit status: that of COMMAND; 127 where ssh, ssh-keygen or sshd (Debian: openssh-server) isn't there; 1 where sshd doesn't start.

PATH=$PATH:/usr/sbin
sshd=$(command -v sshd) && command -v ssh >/dev/null && command -v ssh-keygen >/dev/null || {
	echo "two-machines.sh: sshd isn't there; on Debian: apt-get install openssh-server" >&2
	exit 127
}
MACHINES=$(mktemp -d) || exit 1
HOME=$MACHINES/home
mkdir "$HOME"
export MACHINES HOME
made=
end() {
	trap '' INT TERM
	for name in alpha beta; do
		[ ! -s "$MACHINES/$name" ] || "$MACHINES/fail" "$name"
	done
	rm -rf "$MACHINES"
	[ -z "$made" ] || ps -A -o comm= | grep -qx sshd || rmdir /run/sshd 2>/dev/null
}
trap end EXIT
trap 'exit 130' INT
trap 'exit 143' TERM
if [ "$(id -u)" = 0 ] && [ ! -d /run/sshd ]; then mkdir -m 755 /run/sshd && made=1; fi

user=$(id -un)
ssh-keygen -q -t ed25519 -N '' -C throw-away -f "$MACHINES/key" || exit 1
cp "$MACHINES/key.pub" "$MACHINES/authorized"
cat >"$MACHINES/ssh" <<END
#!/bin/sh
exec ssh -F "$MACHINES/config" "\$@"
END
cat >"$MACHINES/start" <<END
#!/bin/sh
# Starts an sshd at its port and waits, for five seconds at most, until it listens.
name=\$1
: >"$MACHINES/\$name.log"
timeout 600 "$sshd" -D -E "$MACHINES/\$name.log" -f "$MACHINES/\$name.config" &
echo \$! >"$MACHINES/\$name"
for try in 1 2 3 4 5 6 7 8 9 10 11 12 13 14 15 16 17 18 19 20 21 22 23 24 25; do
	grep -q '^Server listening' "$MACHINES/\$name.log" && exit 0
	kill -0 "\$(cat "$MACHINES/\$name")" 2>/dev/null || exit 1
	sleep 0.2
done
exit 1
END
cat >"$MACHINES/fail" <<END
#!/bin/sh
# Ends the sshd and all processes below it, each by its number.
ps -A -o pid= -o ppid= | awk -v top="\$(cat "$MACHINES/\$1")" '
	{ parent[\$1] = \$2 }
	END { for (p in parent) { for (q = p; q != top && q in parent; q = parent[q]) ; if (q == top) print p } }' |
	while read -r process; do kill "\$process" 2>/dev/null; done
: >"$MACHINES/\$1"
END
chmod 755 "$MACHINES/ssh" "$MACHINES/start" "$MACHINES/fail"

# A port that is free is found by trying, twenty times at most.
port=$((20000 + $$ % 20000))
for name in alpha beta; do
	ssh-keygen -q -t ed25519 -N '' -C "$name" -f "$MACHINES/$name.key" || exit 1
	for try in 1 2 3 4 5 6 7 8 9 10 11 12 13 14 15 16 17 18 19 20; do
		port=$((port + 37))
		cat >"$MACHINES/$name.config" <<END
ListenAddress 127.0.0.1
Port $port
HostKey $MACHINES/$name.key
AuthorizedKeysFile $MACHINES/authorized
AllowUsers $user
PermitRootLogin prohibit-password
PasswordAuthentication no
KbdInteractiveAuthentication no
StrictModes no
SetEnv PATH=$PATH HOME=$HOME
UsePAM no
PidFile none
LoginGraceTime 20
MaxStartups 50
END
		"$MACHINES/start" $name && break
		[ $try -lt 20 ] || {
			cat "$MACHINES/$name.log" >&2
			exit 1
		}
	done
	echo "[127.0.0.1]:$port $(cut -d' ' -f1,2 "$MACHINES/$name.key.pub")" >>"$MACHINES/known"
	cat >>"$MACHINES/config" <<END
Host $name
	HostName 127.0.0.1
	Port $port
	User $user
	IdentityFile $MACHINES/key
	IdentitiesOnly yes
	UserKnownHostsFile $MACHINES/known
	GlobalKnownHostsFile /dev/null
	StrictHostKeyChecking yes
	BatchMode yes
	ConnectTimeout 10
	LogLevel ERROR
END
done
"$@"
