# Completions of `cargo hack` for fish, written by tools/manual.py.
# They belong into a folder conf.d: fish loads the completions of cargo beside them, but would not load these for `cargo`.

# The arguments before the cursor, one a line. It fails where the call isn't one of `cargo hack`.
function __cargo_hack_arguments
    set -l words (commandline -opc)
    set -l program (string replace -r '.*/' '' -- $words[1])
    set -e words[1]
    if test "$program" = cargo
        string match -q -- '+*' $words[1]; and set -e words[1]
        test "$words[1]" = hack; or return 1
    end
    test "$words[1]" = hack; and set -e words[1]
    string join \n -- $words
    return 0
end

# Whether the subcommand is still to come. The value of an option isn't one.
function __cargo_hack_wants_subcommand
    set -l words (__cargo_hack_arguments); or return 1
    set -l is_value 0
    for it in $words
        if test $is_value = 1
            set is_value 0
        else if contains -- $it -p --package --exclude --manifest-path -F --features --skip --exclude-features --depth --group-features --target --mutually-exclusive-features --allow-together --at-least-one-of --include-features --version-range --version-step --partition --partition-kind --log-group --color --strength --parallel --most-runs
            set is_value 1
        else if not string match -q -- '-*' $it
            return 1
        end
    end
    test $is_value = 0
end

# The subcommands of cargo: also its aliases, and those that are installed.
function __cargo_hack_subcommands
    set -l found (cargo --list 2> /dev/null | string replace -rf '^ +(\S+) *(.*)' '$1\t$2')
    test -n "$found"; or set found build check run test
    string join \n -- $found
end

complete -c cargo -c cargo-hack -n __cargo_hack_wants_subcommand -f -a '(__cargo_hack_subcommands)'
complete -c cargo -c cargo-hack -n __cargo_hack_arguments -s p -l package -x -d 'Package(s) to check'
complete -c cargo -c cargo-hack -n __cargo_hack_arguments -l all -d 'Alias for --workspace'
complete -c cargo -c cargo-hack -n __cargo_hack_arguments -l workspace -d 'Perform command for all packages in the workspace'
complete -c cargo -c cargo-hack -n __cargo_hack_arguments -l exclude -x -d 'Exclude packages from the check'
complete -c cargo -c cargo-hack -n __cargo_hack_arguments -l manifest-path -r -F -d 'Path to Cargo.toml'
complete -c cargo -c cargo-hack -n __cargo_hack_arguments -l locked -d 'Require Cargo.lock is up to date'
complete -c cargo -c cargo-hack -n __cargo_hack_arguments -s F -l features -x -d 'Space or comma separated list of features to activate'
complete -c cargo -c cargo-hack -n __cargo_hack_arguments -l each-feature -d 'Perform for each feature of the package'
complete -c cargo -c cargo-hack -n __cargo_hack_arguments -l feature-powerset -d 'Perform for the feature powerset of the package'
complete -c cargo -c cargo-hack -n __cargo_hack_arguments -l optional-deps -d 'Use optional dependencies as features'
complete -c cargo -c cargo-hack -n __cargo_hack_arguments -l skip -x -d 'Alias for --exclude-features'
complete -c cargo -c cargo-hack -n __cargo_hack_arguments -l exclude-features -x -d 'Space or comma separated list of features to exclude'
complete -c cargo -c cargo-hack -n __cargo_hack_arguments -l exclude-no-default-features -d 'Exclude run of just --no-default-features flag'
complete -c cargo -c cargo-hack -n __cargo_hack_arguments -l exclude-all-features -d 'Exclude run of just --all-features flag'
complete -c cargo -c cargo-hack -n __cargo_hack_arguments -l depth -x -d 'Specify a max number of simultaneous feature flags of --feature-powerset'
complete -c cargo -c cargo-hack -n __cargo_hack_arguments -l group-features -x -d 'Space or comma separated list of features to group'
complete -c cargo -c cargo-hack -n __cargo_hack_arguments -l target -x -d 'Build for specified target triple'
complete -c cargo -c cargo-hack -n __cargo_hack_arguments -l mutually-exclusive-features -x -d 'Space or comma separated list of features to not use together'
complete -c cargo -c cargo-hack -n __cargo_hack_arguments -l allow-together -x -d 'Lift one group of --mutually-exclusive-features for one package'
complete -c cargo -c cargo-hack -n __cargo_hack_arguments -l at-least-one-of -x -d 'Space or comma separated list of features. Skips sets of features that don\'t enable any of the features listed'
complete -c cargo -c cargo-hack -n __cargo_hack_arguments -l include-features -x -d 'Include only the specified features in the feature combinations instead of package features'
complete -c cargo -c cargo-hack -n __cargo_hack_arguments -l no-dev-deps -d 'Perform without dev-dependencies'
complete -c cargo -c cargo-hack -n __cargo_hack_arguments -l remove-dev-deps -d 'Equivalent to --no-dev-deps flag except for does not restore the original `Cargo.toml` after performed'
complete -c cargo -c cargo-hack -n __cargo_hack_arguments -l no-private -d 'Perform without `publish = false` crates'
complete -c cargo -c cargo-hack -n __cargo_hack_arguments -l ignore-private -d 'Skip to perform on `publish = false` packages'
complete -c cargo -c cargo-hack -n __cargo_hack_arguments -l ignore-unknown-features -d 'Skip passing --features flag to `cargo` if that feature does not exist in the package'
complete -c cargo -c cargo-hack -n __cargo_hack_arguments -l rust-version -d 'Perform commands on `package.rust-version`'
complete -c cargo -c cargo-hack -n __cargo_hack_arguments -l version-range -x -d 'Perform commands on a specified (inclusive) range of Rust versions'
complete -c cargo -c cargo-hack -n __cargo_hack_arguments -l version-step -x -d 'Specify the version interval of --version-range (default to `1`)'
complete -c cargo -c cargo-hack -n __cargo_hack_arguments -l clean-per-run -d 'Remove artifacts for that package before running the command'
complete -c cargo -c cargo-hack -n __cargo_hack_arguments -l clean-per-version -d 'Remove artifacts per Rust version'
complete -c cargo -c cargo-hack -n __cargo_hack_arguments -l keep-going -d 'Keep going on failure'
complete -c cargo -c cargo-hack -n __cargo_hack_arguments -l partition -x -d 'Partition runs and execute only its subset according to M/N'
complete -c cargo -c cargo-hack -n __cargo_hack_arguments -l partition-kind -x -a 'block turn' -d 'Partitioning: block, turn'
complete -c cargo -c cargo-hack -n __cargo_hack_arguments -l log-group -x -a 'none github-actions' -d 'Log grouping: none, github-actions'
complete -c cargo -c cargo-hack -n __cargo_hack_arguments -l workspace-behavior=cargo -d 'Use Cargo\'s workspace handling'
complete -c cargo -c cargo-hack -n __cargo_hack_arguments -l print-command-list -d 'Print commands without run (Unstable)'
complete -c cargo -c cargo-hack -n __cargo_hack_arguments -l no-manifest-path -d 'Do not pass --manifest-path option to cargo (Unstable)'
complete -c cargo -c cargo-hack -n __cargo_hack_arguments -s v -l verbose -d 'Use verbose output'
complete -c cargo -c cargo-hack -n __cargo_hack_arguments -l color -x -a 'auto always never' -d 'Coloring: auto, always, never'
complete -c cargo -c cargo-hack -n __cargo_hack_arguments -s h -l help -d 'Prints help information'
complete -c cargo -c cargo-hack -n __cargo_hack_arguments -s V -l version -d 'Prints version information'
complete -c cargo -c cargo-hack -n __cargo_hack_arguments -l no-default-features -d 'Run without the default features. This is Cargo\'s own option'
complete -c cargo -c cargo-hack -n __cargo_hack_arguments -l all-features -d 'Run with all features. This is Cargo\'s own option'
complete -c cargo -c cargo-hack -n __cargo_hack_arguments -l include-deps-features -d 'Use the features of dependencies as features of the package'
complete -c cargo -c cargo-hack -n __cargo_hack_arguments -l strength -x -d 'Run a sample of the powerset, a few sets that show each pattern of at most NUM features'
complete -c cargo -c cargo-hack -n __cargo_hack_arguments -l restore -d 'Bring back what an interrupted call left edited, and run nothing'
complete -c cargo -c cargo-hack -n __cargo_hack_arguments -l package-rules -d 'Run each package also by the rules that its manifest and the workspace\'s have'
complete -c cargo -c cargo-hack -n __cargo_hack_arguments -l parallel -x -d 'Run up to NUM commands at once, from 1 to 256, in the order and with the outcomes of one by one'
complete -c cargo -c cargo-hack -n __cargo_hack_arguments -l find-rust-version -d 'Find the least version of Rust on which all runs of a package pass, by few runs'
complete -c cargo -c cargo-hack -n __cargo_hack_arguments -l find-conflicts -d 'Find the least sets of features that fail, and how many greatest ones pass, by few runs of the powerset'
complete -c cargo -c cargo-hack -n __cargo_hack_arguments -l most-runs -x -d 'Run at most NUM sets to find conflicts, of all packages together'
