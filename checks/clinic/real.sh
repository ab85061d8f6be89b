#!/bin/bash
# What test_real.py runs as root in a bare Debian, in namespaces of its own. A line that begins with
# "ok " or "no " tells what was so. README's lines come as files: install.sh, recorder.sh, samba.sh.
cd /tried || exit 9
export PATH=/usr/sbin:/usr/bin:/sbin:/bin LC_ALL=C.UTF-8
says() { if "${@:2}" >out 2>&1; then echo "ok $1"; else echo "no $1: $(tail -n 3 out | tr '\n' ' ')"; fi; }
fails() { if "${@:2}" >out 2>&1; then echo "no $1: $(tail -n 3 out | tr '\n' ' ')"; else echo "ok $1"; fi; }
holds() { for _ in $(seq 300); do eval "$1" >out 2>&1 && return; sleep 0.1; done; return 1; }
has_systemd() { [ -d /run/systemd/system ]; }
ip link set lo up
if ! has_systemd; then
  systemctl() { [ "$1" != reload ] || /usr/sbin/smbd -D; }
fi

says "the packages install" dpkg -i ./edfstore.deb ./edfclinic.deb
says "the trees are there" [ "$(stat -c '%U %a' /srv/inbox /srv/edfclinic /srv/nights | tr '\n' ' ')" \
  = "root 755 edfclinic 700 edfclinic 2750 " ]
ssh-keygen -A >out 2>&1
mkdir -p /run/sshd
. ./install.sh >out 2>&1
printf 'still = "1 s"\nrefuse = "2 s"\nfree_space = "1 kB"\n' >/etc/edfclinic.toml
for name in r01 r02; do
  ssh-keygen -q -t ed25519 -N '' -f "$name" <<<y
  sed "s/r01/$name/g" recorder.sh >one.sh
  . ./one.sh >out 2>&1
done
says "the config is root's and is read" edfclinic nights
has_systemd || {
  /usr/sbin/sshd
  setpriv --reuid edfclinic --regid edfclinic --groups "$(id -g r01),$(id -g r02)" \
    edfclinic receive --all 2>receive.log &
}

# SFTP
sftp=(sftp -q -b - -i r01 -o StrictHostKeyChecking=no -o UserKnownHostsFile=known r01@127.0.0.1)
ssh=(ssh -i r01 -o StrictHostKeyChecking=no -o UserKnownHostsFile=known -o BatchMode=yes r01@127.0.0.1)
holds 'ssh-keyscan 127.0.0.1 | grep -q ed25519'
says "sftp puts a file" "${sftp[@]}" <<<$'put a.edf\nput b.edf b.edf.filepart\nrename b.edf.filepart b.edf'
says "it is taken" holds '[ ! -e /srv/inbox/r01/a.edf ] && [ ! -e /srv/inbox/r01/b.edf ]'
fails "sftp does not leave the inboxes" "${sftp[@]}" <<<'get /../etc/passwd'
fails "sftp does not list another inbox" "${sftp[@]}" <<<'ls /r02/'
fails "sftp does not rename its inbox" "${sftp[@]}" <<<'rename /r01 /r09'
says "sftp plants a link" "${sftp[@]}" <<<'symlink /etc/shadow link.edf'
says "the link is left and told" holds 'edfclinic status | grep -q "left: file .link.edf.: is a link"'
fails "no shell" "${ssh[@]}" id
ssh-keygen -q -t ed25519 -N '' -f own <<<y
"${sftp[@]}" <<<$'mkdir .ssh\nput own.pub .ssh/authorized_keys' >out 2>&1
fails "no key but root's lets in" sftp -q -b - -i own -o IdentitiesOnly=yes -o UserKnownHostsFile=known \
  r01@127.0.0.1 <<<ls
"${ssh[@]}" -N -L 2222:127.0.0.1:22 2>/dev/null &
forwarding=$!
sleep 1
fails "no forwarding" bash -c 'read -r -t 2 line </dev/tcp/127.0.0.1/2222 && [ -n "$line" ]'
kill "$forwarding" 2>/dev/null

# sudo
useradd -m -G edfstaff tech
as_tech() { runuser -u tech -- "$@"; }
fails "staff is no root" as_tech sudo -n id
says "sudo reads its lines" visudo -c
for words in nights "nights --json" "status --html" help; do
  as_tech sudo -n edfclinic $words >out 2>&1
  says "staff may call $words" [ $? -lt 2 ]
done
for words in "forget S-0118" "recode r01/a --patient b" verify backup "receive r01" "nightsforget S-0118"; do
  says "staff may not call $words" bash -c "runuser -u tech -- sudo -n edfclinic $words 2>&1 | grep -q 'password is required'"
done
says "it tells its version" [ "$(edfclinic --version)" = "edfclinic $(dpkg-query -W -f '${Version}' edfclinic)" ]
fails "staff may name no config" as_tech sudo -n edfclinic --config /tried/other.toml nights
fails "nor behind the command" as_tech sudo -n edfclinic nights --config /tried/other.toml
fails "staff calls no other program" as_tech edfclinic nights
install -o tech -m 600 card.edf /home/tech/card.edf
install -o root -m 600 card.edf /root/secret.edf
fails "staff reads by a card no file of root's" as_tech sudo -n edfclinic morning r01 --card /root/secret.edf
says "nothing was put away by it" [ ! -e /srv/nights/r01 ]
as_tech sudo -n edfclinic morning r01 --card /home/tech/card.edf >out 2>&1
status=$?
says "a technician puts the night away, status $status" [ "$status" -lt 2 ]
night=/srv/nights/r01/2026-11-26-S-0118
says "the night is there" [ -f "$night/night.edf" ]
says "staff reads it" as_tech cat "$night/night.edf"
fails "staff changes nothing" as_tech sh -c "echo x >> $night/night.edf || rm $night/night.edf"
fails "an uploader reads no night" runuser -u r02 -- cat "$night/night.edf"
says "no process of it is root's" [ -z "$(find /srv/nights /srv/edfclinic -user root)" ]

# A config that others may write
cp /etc/edfclinic.toml wrong.toml
chmod 666 wrong.toml
fails "root reads no config that others may write" edfclinic --config /tried/wrong.toml nights
mkdir -p open; cp /etc/edfclinic.toml open/c.toml; chmod 777 open
fails "nor one in such a folder" edfclinic --config /tried/open/c.toml nights
says "an uploader may not call it" bash -c 'runuser -u r01 -- edfclinic nights; [ $? = 2 ]'

# Samba
smbpasswd() { printf 'word\nword\n' | command smbpasswd -s "$@"; }
. ./samba.sh >out 2>&1
printf 'word\nword\n' | command smbpasswd -s -a tech >out 2>&1
smb() { smbclient "//127.0.0.1/$1" -U "$2%word" -c "$3" 2>&1; }
holds 'smb r01 r01 ls'
says "samba puts a file" smb r01 r01 'put c.edf'
says "it is taken too" holds '[ ! -e /srv/inbox/r01/c.edf ]'
says "scorers read the archive" smb nights tech 'get r01/2026-11-26-S-0118/night.edf got.edf'
says "it is the night" cmp got.edf "$night/night.edf"
fails "scorers write nothing there" bash -c 'smbclient //127.0.0.1/nights -U tech%word -c "put c.edf" | grep -v DENIED | grep -q putting'
fails "an uploader has no archive" smb nights r01 ls

if has_systemd; then
  says "the unit runs" systemctl is-active edfclinic-receive@r01
  says "the timer told" holds '[ -s /srv/nights/status.html ]'
  old=$(systemctl show -P MainPID edfclinic-receive@r01)
  (for nth in $(seq 20); do cp d.edf "/srv/inbox/r02/.$nth"; chown -h r02:r02 "/srv/inbox/r02/.$nth"
    mv "/srv/inbox/r02/.$nth" "/srv/inbox/r02/d$nth.edf"; sleep 0.2; done) &
  says "an upgrade under load" dpkg -i ./edfclinic.deb
  says "what ran runs anew" [ "$old" != "$(systemctl show -P MainPID edfclinic-receive@r01)" ]
  wait
  says "nothing is lost" holds '[ -z "$(ls /srv/inbox/r02)" ]'
  says "all are told" [ "$(grep -c accepted /srv/edfclinic/r02/tonight/answers.log)" -ge 20 ]
  old=$(systemctl show -P MainPID edfclinic-receive@r01)
  dpkg -i ./edfstore.deb >out 2>&1
  says "edfstore is another, and it runs anew" holds \
    '[ "$old" != "$(systemctl show -P MainPID edfclinic-receive@r01)" ] && systemctl is-active edfclinic-receive@r01'
  systemctl kill -s KILL edfclinic-receive@r01
  says "a kill, and it is begun again" holds 'systemctl is-active edfclinic-receive@r01'
  says "the unit is sandboxed" bash -c \
    'systemd-analyze security edfclinic-receive@r01 | tail -n 1 | grep -E "[: ](0\.[0-9]|1\.[0-5]) "'
fi
says "the package goes" dpkg -P edfclinic
says "and leaves the nights" [ -f "$night/night.edf" ]
if has_systemd; then
  fails "nothing runs any more" systemctl is-active edfclinic-receive@r01
fi
fails "no program is left" [ -e /usr/bin/edfclinic ]
says "nor a link to a unit" [ -z "$(find /etc/systemd/system -xtype l -name 'edfclinic*')" ]
echo "ok end"
has_systemd && systemctl exit 0
exit 0
