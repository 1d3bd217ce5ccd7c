#!/bin/sh
# sway.sh FOLDER: seatd, as root, opens the node of a played keyboard and hands it to sway of another user,
# without a screen. Its bindings write to FOLDER/out. tools/run starts this by root: sway refuses to be.
here=$(CDPATH= cd -- "$(dirname -- "$0")" && pwd)
OUT=$1/out XDG_RUNTIME_DIR=$1/runtime HOME=$1/runtime
export OUT XDG_RUNTIME_DIR HOME WLR_BACKENDS=headless,libinput WLR_RENDERER=pixman
export LIBSEAT_BACKEND=seatd SEATD_VTBOUND=0
mkdir "$XDG_RUNTIME_DIR" && chown nobody "$1" "$XDG_RUNTIME_DIR" && chmod 700 "$XDG_RUNTIME_DIR" || exit 2
cp "$here/sway.config" "$1/config"
# The other user has to reach the run's folder and umockdev's.
chmod -R a+rwX "$INPUTPLAY_RUN_FOLDER" "$UMOCKDEV_DIR"
seatd -u nobody >"$1/seatd.log" 2>&1 &
seatd=$!
sleep 0.5
timeout 15 setpriv --reuid nobody --regid nogroup --clear-groups sway -c "$1/config" >"$1/sway.log" 2>&1
kill $seatd
cat "$OUT"
