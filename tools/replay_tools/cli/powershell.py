"""The completion of PowerShell, made from the specification: commands and options with what each does. For anything
else it asks the command, as the completions of the other shells do."""

from __future__ import annotations

from collections.abc import Iterator

from replay_tools.cli import completion
from replay_tools.cli.definition import COMMANDS
from replay_tools.cli.specification import Command, Option, Together

HEAD = """\
# Completes the arguments of kubelet-replay in PowerShell: put `. FOLDER/kubelet-replay.ps1` into your profile.
# No PowerShell has run this script, since the project has none. `tools/test --write test_powershell` writes it, and the
# tests compare its commands and options with the specification. For values, files and pods it asks the command, which
# prints a line for each candidate, and then :0 if files are candidates too.
"""
SCRIPT = """
Register-ArgumentCompleter -Native -CommandName kubelet-replay -ScriptBlock {
    param($wordToComplete, $commandAst, $cursorPosition)
    $before = @($commandAst.CommandElements | Where-Object { $_.Extent.EndOffset -lt $cursorPosition })
    $given = @($before | Select-Object -Skip 1 | ForEach-Object { if ($_.Value) { $_.Value } else { $_.Extent.Text } })
    $table = $null
    if ($given.Count -eq 0) {
        $table = $kubeletReplayCommands
    } elseif ($wordToComplete -like '-*' -and $wordToComplete -notlike '*=*') {
        $table = $kubeletReplayOptions["$($given[0])"]
    }
    if ($null -ne $table) {
        return $table.Keys | Where-Object { $_.StartsWith($wordToComplete, 'Ordinal') } | ForEach-Object {
            [System.Management.Automation.CompletionResult]::new($_, $_, 'ParameterValue', $table[$_])
        }
    }
    $last = $wordToComplete
    if ($last -eq '' -and "$PSNativeCommandArgumentPassing" -notin 'Standard', 'Windows') {
        # before version 7.3 an empty argument is left out, and this is taken as one
        $last = '""'
    }
    $said = @(& "$($commandAst.CommandElements[0].Value)" __complete @given $last 2>$null)
    # candidates for the value of --option= have no option
    $option = if ($wordToComplete -match '^--[^=]*=') { $Matches[0] } else { '' }
    # PowerShell offers files if there is no candidate
    $said | Select-Object -SkipLast 1 | ForEach-Object {
        [System.Management.Automation.CompletionResult]::new("$option$_", $_, 'ParameterValue', $_)
    }
}
"""


def text() -> str:
    """The script."""
    commands = table("kubeletReplayCommands", ((command.name, command.says) for command in COMMANDS.values()))
    options = "".join(f"$kubeletReplayOptions['{command.name}'] = {rows(options_of(command))}"
                      for command in COMMANDS.values())
    return f"{HEAD}{commands}$kubeletReplayOptions = @{{}}\n{options}{SCRIPT}"


def options_of(command: Command) -> Iterator[tuple[str, str]]:
    """The names of the options that are offered, each with what it does."""
    says = {option: said_of(line, option) for line in command.lines for option in line.options}
    offered = set(completion.names_of(command, says, False))
    return ((name, says[option]) for option in says for name in option.names if name in offered)


def said_of(line: Option | Together, option: Option) -> str:
    """What the help has of an option; of options that share a line all of that."""
    return line.text if isinstance(line, Together) else option.text


def table(name: str, found: Iterator[tuple[str, str]]) -> str:
    return f"${name} = {rows(found)}"


def rows(found: Iterator[tuple[str, str]]) -> str:
    """A table in its order: a text, and what it does."""
    return "[ordered]@{\n" + "".join(f"    {quoted(name)} = {quoted(says or name)}\n" for name, says in found) + "}\n"


def quoted(said: str) -> str:
    return "'" + said.replace("'", "''") + "'"
