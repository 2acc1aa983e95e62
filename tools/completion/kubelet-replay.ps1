# Completes the arguments of kubelet-replay in PowerShell: put `. FOLDER/kubelet-replay.ps1` into your profile.
# No PowerShell has run this script, since the project has none. `tools/test --write test_powershell` writes it, and the
# tests compare its commands and options with the specification. For values, files and pods it asks the command, which
# prints a line for each candidate, and then :0 if files are candidates too.
$kubeletReplayCommands = [ordered]@{
    'record' = 'record a node as a trace'
    'import' = 'make a trace from a kubelet''s journal'
    'nodes' = 'list the nodes of a cluster that record'
    'fetch' = 'copy the traces of a cluster''s nodes into a folder'
    'story' = 'show what happened to a pod, and why'
    'why' = 'show what led to each event of a pod'
    'page' = 'make an HTML page of a node'
    'timeline' = 'draw pods as an SVG picture'
    'json' = 'write a report as JSON lines, or as tables of SQLite'
    'what-if' = 'replay a trace as it is and with an edit'
    'run' = 'write the report of a trace, by the proved program'
    'check' = 'test whether a file is a trace, by the proved program'
    'explain' = 'explain why the program rejects a trace'
    'fleet' = 'replay the traces of many nodes, and find the worst'
}
$kubeletReplayOptions = @{}
$kubeletReplayOptions['record'] = [ordered]@{
    '--node' = 'the node''s name in the cluster (uname -n)'
    '--kubelet' = 'ask the kubelet there, not kubectl; none: ask neither'
    '--curl' = 'the token, and how to check the kubelet''s certificate'
    '--crictl' = 'how to start crictl (''chroot /host crictl'')'
    '--node-line' = 'a node line, if the kubelet serves no /configz'
    '--for' = 'end after N seconds, or after N ticks (20000)'
    '--ticks' = 'end after N seconds, or after N ticks (20000)'
    '--look' = 'seconds between two polls (1), between two ticks (10)'
    '--every' = 'seconds between two polls (1), between two ticks (10)'
    '--logs' = 'keep safe parts of a failed container''s last N lines'
    '--events' = 'ask the API server for Events; kubectl: ask by kubectl'
    '--metrics' = 'also write OpenMetrics text'
    '--throttled' = 'ask how long processors were throttled'
    '--standard' = 'the trace''s format (--standard)'
    '--extended' = 'the trace''s format (--standard)'
    '--eviction-pause' = 'the longest pause after an eviction, in seconds (30)'
    '--simulate' = 'let the rules evict pods by themselves'
    '--into' = 'one trace after the other, each for --each TIME (1h)'
    '--each' = 'one trace after the other, each for --each TIME (1h)'
    '--keep' = 'remove older traces (48h), keep at most SIZE (2Gi)'
    '--most' = 'remove older traces (48h), keep at most SIZE (2Gi)'
    '--ship' = 'run COMMAND for each whole trace (''rclone copy {} x:'')'
    '--check' = 'test each source once, and end'
}
$kubeletReplayOptions['import'] = [ordered]@{
    '--journal' = 'a journal of the kubelet or of its runtime, or -'
    '--pods' = 'manifests and statuses (kubectl get pods -A -o json)'
    '--events' = 'kubectl get events -A -o json'
    '--audit' = 'an audit log of the API server'
    '--node' = 'the node, if the journal has several or no name'
    '--unit' = 'the kubelet''s systemd unit (k3s, rke2-agent, ..)'
    '--year' = 'for klog''s moments (the file''s year, and UTC)'
    '--zone' = 'for klog''s moments (the file''s year, and UTC)'
    '--most' = 'how much of each journal to read (4Gi)'
    '--into' = 'write one trace after the other into FOLDER'
    '--each' = 'how long such a trace is (1h)'
    '--since' = 'with NODE, how far back (1h)'
    '--timeout' = 'seconds for which an answer may pause (60)'
    '--context' = 'kubectl''s own options'
}
$kubeletReplayOptions['nodes'] = [ordered]@{
    '--recorders' = 'the namespace of the recorders (kubelet-replay)'
    '--timeout' = 'seconds for which a recorder may be silent (15)'
    '--context' = 'kubectl''s own options'
}
$kubeletReplayOptions['fetch'] = [ordered]@{
    '--all' = 'all nodes that record'
    '--since' = 'only the traces since TIME (2h, or 2026-11-27T03:10Z)'
    '--at' = 'only from an hour before TIME to ten minutes after'
    '--into' = 'where to copy them (traces)'
    '--most' = 'the most to copy of a node (1Gi)'
    '--recorders' = 'the namespace of the recorders (kubelet-replay)'
    '--timeout' = 'seconds for which a recorder may be silent (15)'
    '--context' = 'kubectl''s own options'
}
$kubeletReplayOptions['story'] = [ordered]@{
    '-f' = 'a trace, a report, a folder of traces, or -'
    '--filename' = 'a trace, a report, a folder of traces, or -'
    '--since' = 'only what came since TIME (2h, or 2026-11-27T03:10Z)'
    '--at' = 'only the ten minutes before and after TIME'
    '--node' = 'one node of a folder, or of the cluster'
    '--follow' = 'print events as a recorder writes them into FOLDER'
    '-n' = 'the namespace of the pods'
    '--namespace' = 'the namespace of the pods'
    '-A' = 'the pods of all namespaces'
    '--all-namespaces' = 'the pods of all namespaces'
    '-l' = 'the pods of the cluster with LABEL'
    '--selector' = 'the pods of the cluster with LABEL'
    '--all' = 'each event (default: the last 20 that matter)'
    '-o' = 'the story as one JSON object'
    '--output' = 'the story as one JSON object'
    '--recorders' = 'the namespace of the recorders (kubelet-replay)'
    '--timeout' = 'seconds for which a source may be silent (15)'
    '--utc' = 'moments in UTC, in local time, or in trace seconds'
    '--local' = 'moments in UTC, in local time, or in trace seconds'
    '--seconds' = 'moments in UTC, in local time, or in trace seconds'
}
$kubeletReplayOptions['why'] = [ordered]@{
    '-f' = 'a trace, or a folder of traces'
    '--filename' = 'a trace, or a folder of traces'
    '--since' = 'only what came since TIME (2h, or 2026-11-27T03:10Z)'
    '--at' = 'only the ten minutes before and after TIME'
    '--node' = 'one node of a folder, or of the cluster'
    '-n' = 'the namespace of the pods'
    '--namespace' = 'the namespace of the pods'
    '-l' = 'the pods of the cluster with LABEL'
    '--selector' = 'the pods of the cluster with LABEL'
    '--recorders' = 'the namespace of the recorders (kubelet-replay)'
    '--timeout' = 'seconds for which a source may be silent (15)'
    '--utc' = 'moments in UTC, in local time, or in trace seconds'
    '--local' = 'moments in UTC, in local time, or in trace seconds'
    '--seconds' = 'moments in UTC, in local time, or in trace seconds'
}
$kubeletReplayOptions['page'] = [ordered]@{
    '-f' = 'a trace, a report, a folder of traces, or -'
    '--filename' = 'a trace, a report, a folder of traces, or -'
    '--since' = 'only what came since TIME (2h, or 2026-11-27T03:10Z)'
    '--at' = 'only from an hour before TIME to ten minutes after'
    '--node' = 'one node of a folder, or of the cluster'
    '-n' = 'the namespace of the workload'
    '--namespace' = 'the namespace of the workload'
    '-l' = 'the pods of the cluster with LABEL'
    '--selector' = 'the pods of the cluster with LABEL'
    '--recorders' = 'the namespace of the recorders (kubelet-replay)'
    '--timeout' = 'seconds for which a source may be silent (15)'
    '--utc' = 'moments in UTC, in local time, or in trace seconds'
    '--local' = 'moments in UTC, in local time, or in trace seconds'
    '--seconds' = 'moments in UTC, in local time, or in trace seconds'
}
$kubeletReplayOptions['timeline'] = [ordered]@{
    '-f' = 'a trace, a report, a folder of traces, or -'
    '--filename' = 'a trace, a report, a folder of traces, or -'
    '--since' = 'only what came since TIME (2h, or 2026-11-27T03:10Z)'
    '--at' = 'only from an hour before TIME to ten minutes after'
    '--node' = 'one node of a folder, or of the cluster'
    '-n' = 'the namespace of the pods'
    '--namespace' = 'the namespace of the pods'
    '-l' = 'the pods of the cluster with LABEL'
    '--selector' = 'the pods of the cluster with LABEL'
    '--recorders' = 'the namespace of the recorders (kubelet-replay)'
    '--timeout' = 'seconds for which a source may be silent (15)'
    '--utc' = 'moments in UTC, in local time, or in trace seconds'
    '--local' = 'moments in UTC, in local time, or in trace seconds'
    '--seconds' = 'moments in UTC, in local time, or in trace seconds'
}
$kubeletReplayOptions['json'] = [ordered]@{
    '-f' = 'a trace, a report, a folder of traces, or -'
    '--filename' = 'a trace, a report, a folder of traces, or -'
    '--sqlite' = 'write the tables of a database instead of lines'
    '--since' = 'only what came since TIME (2h, or 2026-11-27T03:10Z)'
    '--at' = 'only from an hour before TIME to ten minutes after'
    '--node' = 'one node of a folder, or of the cluster'
    '-n' = 'the namespace of the workload'
    '--namespace' = 'the namespace of the workload'
    '-l' = 'the pods of the cluster with LABEL'
    '--selector' = 'the pods of the cluster with LABEL'
    '--recorders' = 'the namespace of the recorders (kubelet-replay)'
    '--timeout' = 'seconds for which a source may be silent (15)'
}
$kubeletReplayOptions['what-if'] = [ordered]@{
    '-f' = 'the trace, or -'
    '--filename' = 'the trace, or -'
    '--timeout' = 'end an edit that takes longer than N seconds (10)'
}
$kubeletReplayOptions['run'] = [ordered]@{
    '-f' = 'a trace, a folder of traces, or -'
    '--filename' = 'a trace, a folder of traces, or -'
    '--fail-on' = 'status 4 if it happened: evicted, restarted, unready'
    '--workers' = 'how many workers take the steps of the replay'
    '--extended' = 'read the trace in the extended format, whatever it is'
}
$kubeletReplayOptions['check'] = [ordered]@{
    '-f' = 'a trace, a folder of traces, or -'
    '--filename' = 'a trace, a folder of traces, or -'
    '--extended' = 'read the trace in the extended format, whatever it is'
}
$kubeletReplayOptions['explain'] = [ordered]@{
    '-f' = 'a trace, a folder of traces, or -'
    '--filename' = 'a trace, a folder of traces, or -'
    '--extended' = 'read the trace in the extended format'
    '--line' = 'print one line'
}
$kubeletReplayOptions['fleet'] = [ordered]@{
    '-f' = 'a trace, a folder, or a pattern in quotes'
    '--filename' = 'a trace, a folder, or a pattern in quotes'
    '--out' = 'the SQLite database to write'
    '--by' = 'worst, restarts, unready or evicted (worst)'
    '--top' = 'how many pods and nodes to print (10)'
    '--metrics' = 'also write OpenMetrics text for a node exporter'
    '--parquet' = 'also write the tables as Parquet files'
    '--processes' = 'how many processes to use (one for each processor)'
    '--scheduler' = 'use the workers of Dask distributed at ADDRESS'
    '--anew' = 'replay the traces again that are done already'
}

Register-ArgumentCompleter -Native -CommandName kubelet-replay -ScriptBlock {
    param($wordToComplete, $commandAst, $cursorPosition)
    $before = @($commandAst.CommandElements | Where-Object { $_.Extent.EndOffset -lt $cursorPosition })
    $given = @($before | Select-Object -Skip 1 | ForEach-Object { if ($_.Value) { $_.Value } else { $_.Extent.Text } })
    $table = $null
    if ($given.Count -eq 0) {
        $table = $kubeletReplayCommands
    } elseif ($wordToComplete -like '-*' -and $wordToComplete -notlike '*=*') {
        $table = $kubeletReplayOptions["$($given[0])"]
    }
    if ($null -ne $table) {
        return $table.Keys | Where-Object { $_.StartsWith($wordToComplete, 'Ordinal') } | ForEach-Object {
            [System.Management.Automation.CompletionResult]::new($_, $_, 'ParameterValue', $table[$_])
        }
    }
    $last = $wordToComplete
    if ($last -eq '' -and "$PSNativeCommandArgumentPassing" -notin 'Standard', 'Windows') {
        # before version 7.3 an empty argument is left out, and this is taken as one
        $last = '""'
    }
    $said = @(& "$($commandAst.CommandElements[0].Value)" __complete @given $last 2>$null)
    # candidates for the value of --option= have no option
    $option = if ($wordToComplete -match '^--[^=]*=') { $Matches[0] } else { '' }
    # PowerShell offers files if there is no candidate
    $said | Select-Object -SkipLast 1 | ForEach-Object {
        [System.Management.Automation.CompletionResult]::new("$option$_", $_, 'ParameterValue', $_)
    }
}
