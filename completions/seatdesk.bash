# shellcheck shell=bash
# Completions of seatdesk for bash, made by completions/write from the program's help.

_seatdesk() {
    local current=${COMP_WORDS[COMP_CWORD]} before=${COMP_WORDS[COMP_CWORD - 1]} ahead='' command='' words files values place i
    # (--first=2024-07-01 is three words here, or one where COMP_WORDBREAKS lacks the sign; so is 3=lisbon.txt)
    [ "$current" != = ] || current=
    [ "$before" != = ] || before=${COMP_WORDS[COMP_CWORD - 2]}
    case $current in
    --*=* | [1-8]=*)
        ahead=${current%%=*}=
        before=${current%%=*}
        current=${current#*=}
        ;;
    esac
    for ((i = 1; i < COMP_CWORD; i++)); do
        case ${COMP_WORDS[i]} in
        ladder | check | flights | cover | rooms | loads | run | serve | route | bookings | waiting | pickup | history | avs | reconcile | compare | carry | changes | audit | seal | recover | replies | told | why | explain | season | help)
            command=${COMP_WORDS[i]}
            break
            ;;
        esac
    done
    case $command in
    '')
        words='ladder check flights cover rooms loads run serve route bookings waiting pickup history avs reconcile compare carry changes audit seal recover replies told why explain season help -v --verbose --quiet -h --help -V --version'
        files=''
        values=''
        place=''
        ;;
    ladder)
        words='-v --verbose --quiet -h --help'
        files=''
        values=''
        place=''
        ;;
    check)
        words='-v --verbose --quiet -h --help'
        files=''
        values=''
        place='files'
        ;;
    flights)
        words='--first --days --csv --json -v --verbose --quiet -h --help'
        files=''
        values='--first --days'
        place='files'
        ;;
    cover)
        words='--set --limits --first --days --season --csv --json -v --verbose --quiet -h --help'
        files='--set --limits --season'
        values='--first --days'
        place=''
        ;;
    rooms)
        words='--set --limits --first --days --season --day --pair --bars --csv --json --open -v --verbose --quiet -h --help'
        files='--set --limits --season'
        values='--first --days --day --pair'
        place='files'
        ;;
    loads)
        words='--set --limits --first --days --season --flight --day --pair --by --bars --csv --json --html --open --shards -v --verbose --quiet -h --help'
        files='--set --limits --season'
        values='--first --days --flight --day --pair --by'
        place='files'
        ;;
    run)
        words='--set --limits --first --days --season --after --behind --resume --today --journal --changes --refused --no-clobber --again -v --verbose --quiet -h --help'
        files='--set --limits --season --after --resume --journal --changes --refused'
        values='--first --days --behind --today'
        place='files'
        ;;
    serve)
        words='--set --limits --first --days --season --today --journal --desk --manager --status --every --feed --behind --close-departed -v --verbose --quiet -h --help'
        files='--set --limits --season --journal --status'
        values='--first --days --today --desk --manager --every --feed --behind'
        place=''
        ;;
    route)
        words='--shards --changes -v --verbose --quiet -h --help'
        files='--changes'
        values='--shards'
        place='files'
        ;;
    bookings)
        words='--set --limits --first --days --season --locator --flight --day --csv --json --open -v --verbose --quiet -h --help'
        files='--set --limits --season'
        values='--first --days --locator --flight --day'
        place='files'
        ;;
    waiting)
        words='--set --limits --first --days --season --flight --day --csv --json --open --shards -v --verbose --quiet -h --help'
        files='--set --limits --season'
        values='--first --days --flight --day'
        place='files'
        ;;
    pickup)
        words='--set --limits --first --days --season --behind --since --flight --by --csv --json --open -v --verbose --quiet -h --help'
        files='--set --limits --season --since'
        values='--first --days --behind --flight --by'
        place='files'
        ;;
    history)
        words='--set --limits --first --days --season --locator --flight --day --csv --json --open -v --verbose --quiet -h --help'
        files='--set --limits --season'
        values='--first --days --locator --flight --day'
        place='files'
        ;;
    avs)
        words='--set --limits --first --days --season --since --numeric --partner --flight --day --open -v --verbose --quiet -h --help'
        files='--set --limits --season --since --partner'
        values='--first --days --flight --day'
        place='files'
        ;;
    reconcile)
        words='--set --limits --first --days --season --session --all --open -v --verbose --quiet -h --help'
        files='--set --limits --season'
        values='--first --days --session'
        place='files'
        ;;
    compare)
        words='--from --to -v --verbose --quiet -h --help'
        files='--from --to'
        values=''
        place='files'
        ;;
    carry)
        words='--from --to --today --journal --protect --order --displace --fresh-limits --anew --shard --dry-run --csv --json -v --verbose --quiet -h --help'
        files='--from --to --journal --protect --order'
        values='--today --shard'
        place='files'
        ;;
    changes)
        words='--set --limits --first --days --season --to --flight --day --pair --open -v --verbose --quiet -h --help'
        files='--set --limits --season --to'
        values='--first --days --flight --day --pair'
        place='files'
        ;;
    audit)
        words='--set --limits --first --days --season --after --behind --today --refused --sealed --open --shards -v --verbose --quiet -h --help'
        files='--set --limits --season --after --refused'
        values='--first --days --behind --today'
        place='files'
        ;;
    seal)
        words='--set --limits --first --days --season -v --verbose --quiet -h --help'
        files='--set --limits --season'
        values='--first --days'
        place='files'
        ;;
    recover)
        words='--set --limits --first --days --season --cut -v --verbose --quiet -h --help'
        files='--set --limits --season'
        values='--first --days'
        place='files'
        ;;
    replies)
        words='--set --limits --first --days --season --after --behind --today --refused --session --from --csv --json -v --verbose --quiet -h --help'
        files='--set --limits --season --after --refused'
        values='--first --days --behind --today --session --from'
        place='files'
        ;;
    told)
        words='--set --limits --first --days --season --desk --from --open -v --verbose --quiet -h --help'
        files='--set --limits --season'
        values='--first --days --desk --from'
        place='files'
        ;;
    why)
        words='--set --limits --first --days --season --line --open -v --verbose --quiet -h --help'
        files='--set --limits --season'
        values='--first --days --line'
        place='files'
        ;;
    explain)
        words='A1 A2 A3 A4 A5 A6 A7 A8 A9 B1 C1 CARRY DEVICE E1 E2 F1 F2 F3 F4 F5 F6 F7 F8 F9 FEED G1 G2 G3 G4 G5 G6 H1 H2 H3 H4 H5 H6 J1 J2 J3 J4 K1 L1 L2 L3 L4 M1 M2 M3 M4 M5 M6 M7 MEMORY P1 P2 P3 P4 P5 P6 P7 P8 P9 Q1 Q2 Q3 R2 S1 S2 S3 S4 S5 S6 S7 S8 S9 S10 S11 S12 S13 S14 S15 SEAL SEASON T1 T2 T3 T4 U1 V1 V2 V3 W1 -v --verbose --quiet -h --help'
        [ "$before" != E2 ] || words='behind by day days desk first flight form html journal line locator pair refused script session shard shards status today words'
        [ "$before" != SEAL ] || words='again behind carried days first form journal limits none runs set'
        [ "$before" != CARRY ] || words='new unfinished'
        [ "$before" != SEASON ] || words='form key missing value'
        files=''
        values=''
        place=''
        ;;
    season)
        words='-v --verbose --quiet -h --help'
        files=''
        values=''
        place='files'
        ;;
    help)
        words='ladder check flights cover rooms loads run serve route bookings waiting pickup history avs reconcile compare carry changes audit seal recover replies told why explain season'
        files=''
        values=''
        place=''
        ;;
    esac
    COMPREPLY=()
    case " $values " in
    *" $before "*) return ;;
    esac
    case " $files " in
    *" $before "*) place=files ;;
    esac
    if [ "$place" = files ] && [[ $current != -* ]]; then
        compopt -o filenames 2>/dev/null
        mapfile -t COMPREPLY < <(compgen -P "$ahead" -f -- "$current")
    else
        mapfile -t COMPREPLY < <(compgen -W "$words" -- "$current")
    fi
}

complete -F _seatdesk seatdesk
