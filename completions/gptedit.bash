# Completion of gptedit for bash. scripts/completions makes this file.
_gptedit() {
    local word=${COMP_WORDS[COMP_CWORD]} before=${COMP_WORDS[COMP_CWORD - 1]} words=
    COMPREPLY=()
    # bash makes three words of --option=value.
    if [ "$word" = = ]; then
        word=
    elif [ "$before" = = ] && [ "$COMP_CWORD" -ge 3 ]; then
        before=${COMP_WORDS[COMP_CWORD - 2]}
    fi
    case $before in
    --sector) words="512 1024 2048 4096 auto" ;;
    --lock) words="wait fail none" ;;
    --type) words="efi esp uefi bios-boot linux linux-boot linux-swap swap linux-home home linux-srv linux-var linux-tmp linux-lvm linux-raid linux-luks linux-root-alpha linux-root-arc linux-root-arm linux-root-arm64 linux-root-ia64 linux-root-loongarch64 linux-root-mips-le linux-root-mips64-le linux-root-ppc linux-root-ppc64 linux-root-ppc64-le linux-root-riscv32 linux-root-riscv64 linux-root-s390 linux-root-s390x linux-root-tilegx linux-root-x86 linux-root-x86-64 linux-root-mips linux-root-mips64 linux-root-parisc linux-usr-x86 linux-usr-x86-64 linux-usr-alpha linux-usr-arc linux-usr-arm linux-usr-arm64 linux-usr-ia64 linux-usr-loongarch64 linux-usr-mips-le linux-usr-mips64-le linux-usr-ppc linux-usr-ppc64 linux-usr-ppc64-le linux-usr-riscv32 linux-usr-riscv64 linux-usr-s390 linux-usr-s390x linux-usr-tilegx linux-usr-mips linux-usr-mips64 linux-usr-parisc linux-root-x86-verity linux-root-x86-64-verity linux-root-alpha-verity linux-root-arc-verity linux-root-arm-verity linux-root-arm64-verity linux-root-ia64-verity linux-root-loongarch64-verity linux-root-mips-le-verity linux-root-mips64-le-verity linux-root-ppc-verity linux-root-ppc64-verity linux-root-ppc64-le-verity linux-root-riscv32-verity linux-root-riscv64-verity linux-root-s390-verity linux-root-s390x-verity linux-root-tilegx-verity linux-root-mips-verity linux-root-mips64-verity linux-root-parisc-verity linux-usr-x86-verity linux-usr-x86-64-verity linux-usr-alpha-verity linux-usr-arc-verity linux-usr-arm-verity linux-usr-arm64-verity linux-usr-ia64-verity linux-usr-loongarch64-verity linux-usr-mips-le-verity linux-usr-mips64-le-verity linux-usr-ppc-verity linux-usr-ppc64-verity linux-usr-ppc64-le-verity linux-usr-riscv32-verity linux-usr-riscv64-verity linux-usr-s390-verity linux-usr-s390x-verity linux-usr-tilegx-verity linux-usr-mips-verity linux-usr-mips64-verity linux-usr-parisc-verity linux-root-x86-verity-sig linux-root-x86-64-verity-sig linux-root-alpha-verity-sig linux-root-arc-verity-sig linux-root-arm-verity-sig linux-root-arm64-verity-sig linux-root-ia64-verity-sig linux-root-loongarch64-verity-sig linux-root-mips-le-verity-sig linux-root-mips64-le-verity-sig linux-root-ppc-verity-sig linux-root-ppc64-verity-sig linux-root-ppc64-le-verity-sig linux-root-riscv32-verity-sig linux-root-riscv64-verity-sig linux-root-s390-verity-sig linux-root-s390x-verity-sig linux-root-tilegx-verity-sig linux-root-mips-verity-sig linux-root-mips64-verity-sig linux-root-parisc-verity-sig linux-usr-x86-verity-sig linux-usr-x86-64-verity-sig linux-usr-alpha-verity-sig linux-usr-arc-verity-sig linux-usr-arm-verity-sig linux-usr-arm64-verity-sig linux-usr-ia64-verity-sig linux-usr-loongarch64-verity-sig linux-usr-mips-le-verity-sig linux-usr-mips64-le-verity-sig linux-usr-ppc-verity-sig linux-usr-ppc64-verity-sig linux-usr-ppc64-le-verity-sig linux-usr-riscv32-verity-sig linux-usr-riscv64-verity-sig linux-usr-s390-verity-sig linux-usr-s390x-verity-sig linux-usr-tilegx-verity-sig linux-usr-mips-verity-sig linux-usr-mips64-verity-sig linux-usr-parisc-verity-sig microsoft-data microsoft-reserved microsoft-recovery apple-hfs apple-apfs mbr intel-fast-flash sony-boot lenovo-boot prep-boot onie-boot onie-config microsoft-ldm-metadata microsoft-ldm-data ibm-general-parallel-fs microsoft-storage-spaces hp-ux-data hp-ux-service linux-reserved linux-user-home freebsd-data freebsd-boot freebsd-swap freebsd-ufs freebsd-zfs freebsd-vinum apple-ufs apple-raid apple-raid-offline apple-boot apple-label apple-tv-recovery apple-core-storage apple-silicon-boot apple-silicon-recovery solaris-boot solaris-root solaris-usr solaris-swap solaris-backup solaris-var solaris-home solaris-alternate-sector solaris-reserved-1 solaris-reserved-2 solaris-reserved-3 solaris-reserved-4 solaris-reserved-5 netbsd-swap netbsd-ffs netbsd-lfs netbsd-concatenated netbsd-encrypted netbsd-raid chromeos-kernel chromeos-root chromeos-reserved midnightbsd-data midnightbsd-boot midnightbsd-swap midnightbsd-ufs midnightbsd-zfs midnightbsd-vinum ceph-journal ceph-encrypted-journal ceph-osd ceph-crypt-osd ceph-disk-in-creation ceph-crypt-disk-in-creation vmware-vmfs vmware-diagnostic vmware-virtual-san vmware-virsto vmware-reserved openbsd-data qnx6 plan9 hifive-fsbl hifive-bbl haiku-bfs marvell-armada-3700-boot" ;;
    --place) words="first last best" ;;
    --backup | --script) return ;;
    --align | --guid | --entries | --size | --name | --attributes | --number | --start | --end | --disk-guid)
        compopt +o default 2> /dev/null
        return ;;
    esac
    if [ "$COMP_CWORD" -eq 1 ]; then
        words="show check free dump salvage types new add set resize remove sort grow repair randomize apply wipe help --help --version"
    elif [ "$COMP_CWORD" -eq 2 ] && [ "$before" = help ]; then
        words="show check free dump salvage types new add set resize remove sort grow repair randomize apply wipe"
    elif [ -z "$words" ] && [ "${word:0:1}" = - ]; then
        case ${COMP_WORDS[1]} in
        show) words="--map --short --sector --json -h --help" ;;
        check) words="--sector --json -h --help" ;;
        free) words="--align --sector --json -h --help" ;;
        dump) words="--sfdisk --sector --json -h --help" ;;
        salvage) words="--sector --json -h --help" ;;
        types) words="--json -h --help" ;;
        new) words="--guid --entries -n --dry-run --overwrite --in-use --force --lock --backup --sector --json -h --help" ;;
        add) words="--type --size --name --guid --attributes --number --start --end --place --align --script --fit -n --dry-run --overwrite --in-use --force --lock --backup --sector --json -h --help" ;;
        set) words="--name --type --guid --random-guid --attributes --number --disk-guid --fit -n --dry-run --overwrite --in-use --force --lock --backup --sector --json -h --help" ;;
        resize) words="--end --fit -n --dry-run --overwrite --in-use --force --lock --backup --sector --json -h --help" ;;
        remove) words="--fit -n --dry-run --overwrite --in-use --force --lock --backup --sector --json -h --help" ;;
        sort) words="--fit -n --dry-run --overwrite --in-use --force --lock --backup --sector --json -h --help" ;;
        grow) words="--random-guids -n --dry-run --overwrite --in-use --force --lock --backup --sector --json -h --help" ;;
        repair) words="--bounds --fit -n --dry-run --overwrite --in-use --force --lock --backup --sector --json -h --help" ;;
        randomize) words="--fit -n --dry-run --overwrite --in-use --force --lock --backup --sector --json -h --help" ;;
        apply) words="--replace --create --fit -n --dry-run --overwrite --in-use --force --lock --backup --sector --json -h --help" ;;
        wipe) words="-n --dry-run --overwrite --in-use --force --lock --backup --sector --json -h --help" ;;
        esac
    fi
    mapfile -t COMPREPLY < <(compgen -W "$words" -- "$word")
}
complete -o default -F _gptedit gptedit
