# fish completion of gbkeep and its tools, made by packaging/completions.py

# What may follow these words, four values each: w, a word, nothing, what it does; o or s, an option that is offered or not, what its own word is (f: a file,
# d: a folder, n: nothing that is known, -: it takes none), what it does; p, the operands in the same letters (a star: and so on), nothing, nothing.
function __gbkeep_known
    switch "$argv"
        case 'gbkeep'
            printf '%s\t%s\t%s\t%s\n' \
                'w' 'info' '' 'Prints the header of a cartridge' \
                'w' 'list' '' 'Prints instructions as the machine has them at power-on' \
                'w' 'step' '' 'Prints the registers after some steps from power-on' \
                'w' 'new' '' 'Begins a game in a new file' \
                'w' 'play' '' 'Resumes a game, plays a script on it and saves it' \
                'w' 'frame' '' 'Resumes a game and writes its picture to a file' \
                'w' 'trace' '' 'Resumes a game and prints its next steps, which are not saved' \
                'w' 'stream' '' 'Resumes a game, plays the lines of the standard input as they come and saves it' \
                'w' 'new-recording' '' 'Makes a new file for every input of a game since power-on' \
                'w' 'record' '' 'Resumes a game as stream does, and records each input before it is saved' \
                'w' 'recorded' '' 'Prints the inputs of a recording as a script' \
                'w' 'verify' '' 'Plays a recording again from power-on and compares it with the game' \
                'w' 'show' '' 'Prints what a game\'s file holds, and writes nothing to it' \
                'w' 'export' '' 'Writes the battery-backed RAM of a game to a new file, as other emulators read it' \
                'w' 'import' '' 'Begins a game in a new file with the battery-backed RAM of another emulator' \
                'w' 'test' '' 'Runs a test ROM from power-on until it says that it is done' \
                'w' 'debug' '' 'Runs a cartridge step by step, and shows its registers, memory and history' \
                'w' 'help' '' 'tells the help of a command' \
                'o' '--help' '-' 'tells its help' \
                's' '-h' '-' 'tells its help' \
                'o' '--version' '-' 'tells its version' \
                's' '-V' '-' 'tells its version'
        case 'gbkeep info'
            printf '%s\t%s\t%s\t%s\n' \
                'o' '--help' '-' 'tells its help' \
                's' '-h' '-' 'tells its help' \
                'p' 'f' '' ''
        case 'gbkeep list'
            printf '%s\t%s\t%s\t%s\n' \
                'o' '--help' '-' 'tells its help' \
                's' '-h' '-' 'tells its help' \
                'p' 'fnn' '' ''
        case 'gbkeep step'
            printf '%s\t%s\t%s\t%s\n' \
                'o' '--help' '-' 'tells its help' \
                's' '-h' '-' 'tells its help' \
                'p' 'fn' '' ''
        case 'gbkeep new'
            printf '%s\t%s\t%s\t%s\n' \
                'o' '--help' '-' 'tells its help' \
                's' '-h' '-' 'tells its help' \
                'p' 'ffn' '' ''
        case 'gbkeep play'
            printf '%s\t%s\t%s\t%s\n' \
                'o' '--help' '-' 'tells its help' \
                's' '-h' '-' 'tells its help' \
                'p' 'fff' '' ''
        case 'gbkeep frame'
            printf '%s\t%s\t%s\t%s\n' \
                'o' '--help' '-' 'tells its help' \
                's' '-h' '-' 'tells its help' \
                'p' 'fff' '' ''
        case 'gbkeep trace'
            printf '%s\t%s\t%s\t%s\n' \
                'o' '--help' '-' 'tells its help' \
                's' '-h' '-' 'tells its help' \
                'p' 'ffn' '' ''
        case 'gbkeep stream'
            printf '%s\t%s\t%s\t%s\n' \
                'o' '--help' '-' 'tells its help' \
                's' '-h' '-' 'tells its help' \
                'p' 'ff' '' ''
        case 'gbkeep new-recording'
            printf '%s\t%s\t%s\t%s\n' \
                'o' '--help' '-' 'tells its help' \
                's' '-h' '-' 'tells its help' \
                'p' 'ffn' '' ''
        case 'gbkeep record'
            printf '%s\t%s\t%s\t%s\n' \
                'o' '--help' '-' 'tells its help' \
                's' '-h' '-' 'tells its help' \
                'p' 'fff' '' ''
        case 'gbkeep recorded'
            printf '%s\t%s\t%s\t%s\n' \
                'o' '--help' '-' 'tells its help' \
                's' '-h' '-' 'tells its help' \
                'p' 'ff' '' ''
        case 'gbkeep verify'
            printf '%s\t%s\t%s\t%s\n' \
                'o' '--help' '-' 'tells its help' \
                's' '-h' '-' 'tells its help' \
                'p' 'fff' '' ''
        case 'gbkeep show'
            printf '%s\t%s\t%s\t%s\n' \
                'o' '--help' '-' 'tells its help' \
                's' '-h' '-' 'tells its help' \
                'p' 'ff' '' ''
        case 'gbkeep export'
            printf '%s\t%s\t%s\t%s\n' \
                'o' '--help' '-' 'tells its help' \
                's' '-h' '-' 'tells its help' \
                'p' 'fff' '' ''
        case 'gbkeep import'
            printf '%s\t%s\t%s\t%s\n' \
                'o' '--help' '-' 'tells its help' \
                's' '-h' '-' 'tells its help' \
                'p' 'fffn' '' ''
        case 'gbkeep test'
            printf '%s\t%s\t%s\t%s\n' \
                'o' '--help' '-' 'tells its help' \
                's' '-h' '-' 'tells its help' \
                'p' 'fnf' '' ''
        case 'gbkeep debug'
            printf '%s\t%s\t%s\t%s\n' \
                'o' '--help' '-' 'tells its help' \
                's' '-h' '-' 'tells its help' \
                'p' 'ff' '' ''
        case 'gbkeep help'
            printf '%s\t%s\t%s\t%s\n' \
                'w' 'info' '' 'Prints the header of a cartridge' \
                'w' 'list' '' 'Prints instructions as the machine has them at power-on' \
                'w' 'step' '' 'Prints the registers after some steps from power-on' \
                'w' 'new' '' 'Begins a game in a new file' \
                'w' 'play' '' 'Resumes a game, plays a script on it and saves it' \
                'w' 'frame' '' 'Resumes a game and writes its picture to a file' \
                'w' 'trace' '' 'Resumes a game and prints its next steps, which are not saved' \
                'w' 'stream' '' 'Resumes a game, plays the lines of the standard input as they come and saves it' \
                'w' 'new-recording' '' 'Makes a new file for every input of a game since power-on' \
                'w' 'record' '' 'Resumes a game as stream does, and records each input before it is saved' \
                'w' 'recorded' '' 'Prints the inputs of a recording as a script' \
                'w' 'verify' '' 'Plays a recording again from power-on and compares it with the game' \
                'w' 'show' '' 'Prints what a game\'s file holds, and writes nothing to it' \
                'w' 'export' '' 'Writes the battery-backed RAM of a game to a new file, as other emulators read it' \
                'w' 'import' '' 'Begins a game in a new file with the battery-backed RAM of another emulator' \
                'w' 'test' '' 'Runs a test ROM from power-on until it says that it is done' \
                'w' 'debug' '' 'Runs a cartridge step by step, and shows its registers, memory and history'
        case 'gbkeep-window'
            printf '%s\t%s\t%s\t%s\n' \
                'o' '--gbkeep' 'f' 'the program' \
                'o' '--scale' 'n' 'how large a pixel is at first, 1 to 8' \
                'o' '--keys' 'f' 'a file that changes keys, by lines as `A = space`' \
                'o' '--palette' 'n' 'the colours, 1 to 4' \
                'o' '--record' 'f' 'the file for every input since power-on' \
                'o' '--import' 'f' 'begins a game with the battery file of another emulator' \
                'o' '--help' '-' 'tells its help' \
                's' '-h' '-' 'tells its help' \
                'p' 'ff' '' ''
        case 'gbkeep-script'
            printf '%s\t%s\t%s\t%s\n' \
                'w' 'own' '' 'prints the script that `gbkeep play` reads' \
                'w' 'friendly' '' 'prints a script of gbkeep\'s in these words' \
                'w' 'check' '' 'says which line `gbkeep play` would refuse, and why' \
                'w' 'marks' '' 'prints each mark with the count of inputs before it' \
                'w' 'play' '' 'plays it by `gbkeep stream`, or with RECORDING by `gbkeep record`; FILE may be a recording, too' \
                'o' '--help' '-' 'tells its help' \
                's' '-h' '-' 'tells its help'
        case 'gbkeep-script own'
            printf '%s\t%s\t%s\t%s\n' \
                'o' '--help' '-' 'tells its help' \
                's' '-h' '-' 'tells its help' \
                'p' 'f' '' ''
        case 'gbkeep-script friendly'
            printf '%s\t%s\t%s\t%s\n' \
                'o' '--help' '-' 'tells its help' \
                's' '-h' '-' 'tells its help' \
                'p' 'f' '' ''
        case 'gbkeep-script check'
            printf '%s\t%s\t%s\t%s\n' \
                'o' '--help' '-' 'tells its help' \
                's' '-h' '-' 'tells its help' \
                'p' 'f' '' ''
        case 'gbkeep-script marks'
            printf '%s\t%s\t%s\t%s\n' \
                'o' '--help' '-' 'tells its help' \
                's' '-h' '-' 'tells its help' \
                'p' 'f' '' ''
        case 'gbkeep-script play'
            printf '%s\t%s\t%s\t%s\n' \
                'o' '--record' 'f' '' \
                'o' '--help' '-' 'tells its help' \
                's' '-h' '-' 'tells its help' \
                'p' 'fff' '' ''
        case 'gbkeep-rest'
            printf '%s\t%s\t%s\t%s\n' \
                'o' '--record' 'f' '' \
                'o' '--help' '-' 'tells its help' \
                's' '-h' '-' 'tells its help' \
                'p' 'fff' '' ''
        case 'gbkeep-movie'
            printf '%s\t%s\t%s\t%s\n' \
                'w' 'script' '' 'prints a script of gbkeep\'s with the frames of MOVIE: a BizHawk movie (.bk2) or a VisualBoyAdvance movie (.vbm)' \
                'w' 'friendly' '' 'prints a friendly one (see gbkeep-script), with marks, author, comments and count of rerecords' \
                'w' 'bk2' '' 'writes the frames of a script as a BizHawk movie, which must not exist, with all of these' \
                'o' '--help' '-' 'tells its help' \
                's' '-h' '-' 'tells its help'
        case 'gbkeep-movie script'
            printf '%s\t%s\t%s\t%s\n' \
                'o' '--help' '-' 'tells its help' \
                's' '-h' '-' 'tells its help' \
                'p' 'f' '' ''
        case 'gbkeep-movie friendly'
            printf '%s\t%s\t%s\t%s\n' \
                'o' '--help' '-' 'tells its help' \
                's' '-h' '-' 'tells its help' \
                'p' 'f' '' ''
        case 'gbkeep-movie bk2'
            printf '%s\t%s\t%s\t%s\n' \
                'o' '--help' '-' 'tells its help' \
                's' '-h' '-' 'tells its help' \
                'p' 'fff' '' ''
        case 'gbkeep-film'
            printf '%s\t%s\t%s\t%s\n' \
                'o' '--from' 'n' '' \
                'o' '--to' 'n' '' \
                'o' '--inputs' '-' 'draws the buttons and counters below each picture' \
                'o' '--help' '-' 'tells its help' \
                's' '-h' '-' 'tells its help' \
                'p' 'fff' '' ''
        case 'gbkeep-branch'
            printf '%s\t%s\t%s\t%s\n' \
                'o' '--help' '-' 'tells its help' \
                's' '-h' '-' 'tells its help' \
                'p' 'ffnff' '' ''
        case 'gbkeep-verify'
            printf '%s\t%s\t%s\t%s\n' \
                'o' '--help' '-' 'tells its help' \
                's' '-h' '-' 'tells its help' \
                'p' 'fff' '' ''
        case 'gbkeep-png'
            printf '%s\t%s\t%s\t%s\n' \
                'o' '--help' '-' 'tells its help' \
                's' '-h' '-' 'tells its help' \
                'p' 'ff' '' ''
        case 'gbkeep-battery'
            printf '%s\t%s\t%s\t%s\n' \
                'w' 'to-mgba' '' 'writes OUT for mGBA, of what `gbkeep export` wrote' \
                'w' 'to-gambatte' '' 'writes OUT for gambatte; a clock goes beside it, into OUT with the suffix .rtc' \
                'w' 'from-mgba' '' 'writes OUT for `gbkeep import`, of a file of mGBA\'s' \
                'w' 'from-gambatte' '' 'the same of gambatte\'s, with the clock of BATTERY with the suffix .rtc, if it is there' \
                'w' 'of-save' '' 'writes the RAM of the last checkpoint of SAVE, for `gbkeep import`' \
                'o' '--help' '-' 'tells its help' \
                's' '-h' '-' 'tells its help'
        case 'gbkeep-battery to-mgba'
            printf '%s\t%s\t%s\t%s\n' \
                'o' '--now' '-' 'the time is the present one' \
                'o' '--time' 'n' 'the time, in seconds since 1970' \
                'o' '--help' '-' 'tells its help' \
                's' '-h' '-' 'tells its help' \
                'p' 'fff' '' ''
        case 'gbkeep-battery to-gambatte'
            printf '%s\t%s\t%s\t%s\n' \
                'o' '--now' '-' 'the time is the present one' \
                'o' '--time' 'n' 'the time, in seconds since 1970' \
                'o' '--help' '-' 'tells its help' \
                's' '-h' '-' 'tells its help' \
                'p' 'fff' '' ''
        case 'gbkeep-battery from-mgba'
            printf '%s\t%s\t%s\t%s\n' \
                'o' '--help' '-' 'tells its help' \
                's' '-h' '-' 'tells its help' \
                'p' 'fff' '' ''
        case 'gbkeep-battery from-gambatte'
            printf '%s\t%s\t%s\t%s\n' \
                'o' '--mbc2' '-' 'the file of gambatte is of an MBC2' \
                'o' '--now' '-' 'the time is the present one' \
                'o' '--time' 'n' 'the time, in seconds since 1970' \
                'o' '--help' '-' 'tells its help' \
                's' '-h' '-' 'tells its help' \
                'p' 'fff' '' ''
        case 'gbkeep-battery of-save'
            printf '%s\t%s\t%s\t%s\n' \
                'o' '--help' '-' 'tells its help' \
                's' '-h' '-' 'tells its help' \
                'p' 'ff' '' ''
        case 'gbkeep-run-tests'
            printf '%s\t%s\t%s\t%s\n' \
                'o' '--frames' 'n' 'the most frames of a ROM' \
                's' '-j' 'n' 'how many at once' \
                'o' '--jobs' 'n' 'how many at once' \
                'o' '--filter' 'n' 'only the ROMs with this in their path; * ? [..] as in a shell' \
                'o' '--shard' 'n' 'only every Nth ROM, from the Ith on' \
                'o' '--out' 'd' 'a folder for the pictures that differ; it is made if it is not there' \
                'o' '--junit' 'f' 'a report for a CI' \
                'o' '--json' 'f' 'a report for a program' \
                'o' '--slowest' '-' 'says which five ROMs took the longest, as on a terminal' \
                'o' '--bless' '-' 'stores the pictures as they are now' \
                'o' '--gbkeep' 'f' 'the program' \
                'o' '--help' '-' 'tells its help' \
                's' '-h' '-' 'tells its help' \
                'p' 'f*' '' ''
        case 'gbkeep-debug'
            printf '%s\t%s\t%s\t%s\n' \
                'o' '--save' 'f' 'begins with the game in SAVE, which keeps nothing of this' \
                'o' '--script' 'f' 'a script or a recording, whose inputs go on while it runs' \
                'o' '--do' 'n' 'does this line, and ends; may be given again' \
                's' '-c' 'n' 'does this line, and ends; may be given again' \
                'o' '--program' 'f' 'the program' \
                'o' '--help' '-' 'tells its help' \
                's' '-h' '-' 'tells its help' \
                'p' 'ff' '' ''
        case 'gbkeep-dap'
            printf '%s\t%s\t%s\t%s\n' \
                'o' '--program' 'f' 'the program' \
                'o' '--help' '-' 'tells its help' \
                's' '-h' '-' 'tells its help'
    end
end

# What is to be completed: f, d, n or w; of w, what is offered, a line each.
function __gbkeep_state
    set -l tokens (commandline -opc)
    set -l word (commandline -ct)
    set -l path (string replace -r '^.*/' '' -- $tokens[1])
    set -l known (__gbkeep_known $path)
    set -l wanted ''
    set -l dashes ''
    set -l count 1
    for each in $tokens[2..-1]
        if test -n "$wanted"
            set wanted ''
        else if test -z "$dashes"; and test "x$each" = x--
            set dashes yes
        else if test -z "$dashes"; and string match -q -- '-?*' "$each"
            for one in $known
                set -l parts (string split \t -- $one)
                if contains -- $parts[1] o s; and test "x$parts[2]" = "x$each"; and test "$parts[3]" != -
                    set wanted $parts[3]
                end
            end
        else if string match -q -- w\t'*' $known
            set path "$path $each"
            set known (__gbkeep_known $path)
        else
            set count (math $count + 1)
        end
    end
    if test -z "$wanted"
        set -l begins w
        if test -z "$dashes"; and string match -q -- '-*' "$word"
            set begins o
        end
        if test $begins = o; or string match -q -- w\t'*' $known
            echo w
            for one in $known
                set -l parts (string split \t -- $one)
                if test $parts[1] = $begins
                    printf '%s\t%s\n' $parts[2] $parts[4]
                end
            end
            return
        end
        set -l operands (string replace -r -f '^p\t([fdn*]*)\t.*' '$1' -- $known)
        set -l letters (string split '' -- "$operands")
        if string match -q -- '*\*' "$operands"; and test $count -ge (math (count $letters) - 1)
            set wanted $letters[-2]
        else
            set wanted $letters[$count]
        end
    end
    echo "$wanted"
end

function __gbkeep_wants
    set -l state (__gbkeep_state)
    test "$state[1]" = $argv[1]
end

function __gbkeep_words
    set -l state (__gbkeep_state)
    printf '%s\n' $state[2..-1]
end

for tool in gbkeep gbkeep-window gbkeep-script gbkeep-rest gbkeep-movie gbkeep-film gbkeep-branch gbkeep-verify gbkeep-png gbkeep-battery gbkeep-run-tests gbkeep-debug gbkeep-dap
    complete -e -c $tool
    complete -c $tool -f
    complete -c $tool -n '__gbkeep_wants w' -a '(__gbkeep_words)'
    complete -c $tool -n '__gbkeep_wants f' -F
    complete -c $tool -n '__gbkeep_wants d' -a '(__fish_complete_directories (commandline -ct))'
end
