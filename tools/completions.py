"""Completions of a program for bash, zsh and fish, made from its help (tools/manual.py)."""

# Values that are files.
FILES = ("FILE", "LOGS")


def bash(program, helps):
    """Subcommands; then options, the values of those that name them, and files."""
    cases = []
    for word, text in helps.items():
        for it in text.options:
            names = [f"{word},--{it.long}"] * bool(it.long) + [f"{word},-{it.short}"] * bool(it.short)
            if it.value:
                cases.append(f"    {'|'.join(names)}) COMPREPLY=($(compgen -W '{' '.join(it.values)}' -- \"$cur\")); return ;;")
    words = [f"    {word}) if [[ $cur == -* ]]; then COMPREPLY=($(compgen -W '{' '.join(f'--{it.long}' for it in text.options)}' -- \"$cur\")); return; fi ;;"
             for word, text in helps.items()]
    lines = [
        f"# completion of {program}, made from its --help",
        f"_{program.replace('-', '_')}() {{",
        "  local cur=${COMP_WORDS[COMP_CWORD]} prev=${COMP_WORDS[COMP_CWORD-1]} sub= word",
        "  COMPREPLY=()",
        "  for word in \"${COMP_WORDS[@]:1:COMP_CWORD-1}\"; do",
        "    case $word in -*) ;; *) sub=$word; break ;; esac",
        "  done",
        "  case $sub,$prev in",
        *cases,
        "  esac",
        "  case $sub in",
        f"    '') COMPREPLY=($(compgen -W '{' '.join([*helps, 'help'])} --help --version' -- \"$cur\")); return ;;",
        f"    help) COMPREPLY=($(compgen -W '{' '.join(helps)}' -- \"$cur\")); return ;;",
        *words,
        "  esac",
        "  compopt -o filenames 2> /dev/null",
        "  COMPREPLY=($(compgen -f -- \"$cur\"))",
        "}",
        f"complete -F _{program.replace('-', '_')} {program}",
    ]
    return "\n".join(lines) + "\n"


def quoted_in_zsh(text):
    return text.replace("'", "'\\''").replace("[", "\\[").replace("]", "\\]").replace(":", "\\:")


def word_in_zsh(it):
    value = f":{it.value}:({' '.join(it.values)})" if it.values else f":{it.value}:{'_files' if it.value in FILES else ' '}" if it.value else ""
    return f"'--{it.long}[{quoted_in_zsh(it.about)}]{value}'"


def zsh(program, helps):
    """The same, each with what it is."""
    lines = [
        f"#compdef {program}",
        f"# made from the --help of {program}",
        "local -a commands",
        "commands=(",
        *[f"  '{word}:{quoted_in_zsh(text.about)}'" for word, text in helps.items()],
        "  'help:Print the help of a subcommand'",
        ")",
        "_arguments -C '(- *)'{-h,--help}'[Print help]' '(- *)'{-V,--version}'[Print version]' '1:command:->command' '*::word:->words'",
        "case $state in",
        "  command) _describe command commands ;;",
        "  words) case $words[1] in",
        *[f"    {word}) _arguments {' '.join(map(word_in_zsh, text.options))} '*:file:_files' ;;" for word, text in helps.items()],
        "    help) _describe command commands ;;",
        "  esac ;;",
        "esac",
    ]
    return "\n".join(lines) + "\n"


def quoted_in_fish(text):
    return text.replace("\\", "\\\\").replace("'", "\\'")


def option_in_fish(lead, it):
    values = f" -a '{' '.join(it.values)}'" if it.values else ""
    value = "" if not it.value else " -r" if it.value in FILES else f" -x{values}"
    short = f" -s {it.short}" if it.short else ""
    return f"{lead}{short} -l {it.long}{value} -d '{quoted_in_fish(it.about)}'"


def fish(program, helps):
    """The same for fish."""
    first = f"complete -c {program} -n __fish_use_subcommand -f"
    lines = [f"# made from the --help of {program}", f"{first} -s h -l help -d 'Print help'", f"{first} -s V -l version -d 'Print version'"]
    for word, text in helps.items():
        lines.append(f"{first} -a {word} -d '{quoted_in_fish(text.about)}'")
        lines += [option_in_fish(f"complete -c {program} -n '__fish_seen_subcommand_from {word}'", it) for it in text.options]
    return "\n".join(lines) + "\n"


def of_script(program, options):
    """The three of a program without subcommands: its options, and files."""
    with_value = [it for it in options if it.value]
    cases = [f"    --{it.long}) COMPREPLY=($(compgen {words_or_files(it)} -- \"$cur\")); return ;;" for it in with_value]
    name = program.replace("-", "_")
    in_bash = [
        f"# completion of {program}, made from its --help",
        f"_{name}() {{",
        "  local cur=${COMP_WORDS[COMP_CWORD]} prev=${COMP_WORDS[COMP_CWORD-1]}",
        "  compopt -o filenames 2> /dev/null",
        "  case $prev in",
        *cases,
        "  esac",
        f"  if [[ $cur == -* ]]; then COMPREPLY=($(compgen -W '{' '.join(f'--{it.long}' for it in options)}' -- \"$cur\"))",
        "  else COMPREPLY=($(compgen -f -- \"$cur\")); fi",
        "}",
        f"complete -F _{name} {program}",
    ]
    in_zsh = [f"#compdef {program}", f"# made from the --help of {program}", f"_arguments {' '.join(map(word_in_zsh, options))} '*:file:_files'"]
    in_fish = [f"# made from the --help of {program}", *[option_in_fish(f"complete -c {program}", it) for it in options]]
    return ["\n".join(it) + "\n" for it in (in_bash, in_zsh, in_fish)]


def words_or_files(it):
    return f"-W '{' '.join(it.values)}'" if it.values else "-f" if it.value in FILES else "-W ''"


def completions(program, top, helps):
    """The completion files of a program, by where they lie in share/."""
    made = [it(program, helps) for it in (bash, zsh, fish)] if helps else of_script(program, top.options)
    places = [f"bash-completion/completions/{program}", f"zsh/vendor-completions/_{program}", f"fish/vendor_completions.d/{program}.fish"]
    return dict(zip(places, made)) if helps or top.options else {}
