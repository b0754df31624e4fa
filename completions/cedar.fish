# Completions of `cedar` for fish 3 and later. tools/documents/completions wrote this from the help of the program: do not change it here.

# Whether this is the subcommand that was typed. Without one, it is empty.
function __cedar_runs -a subcommand
    set -l words (commandline -opc)
    test "$words[2]" = "$subcommand"
end

complete -c cedar -f
complete -c cedar -n "__cedar_runs ''" -a validate -d 'Reports on standard output where policies break the rules of a schema'
complete -c cedar -n "__cedar_runs ''" -a authorize -d 'Answers each request line of standard input with a line on standard output'
complete -c cedar -n "__cedar_runs ''" -a why -d 'Says why each request line of standard input is allowed or denied'
complete -c cedar -n "__cedar_runs ''" -a ask -d 'Answers one request, and ends with 0 for allow and 5 for deny'
complete -c cedar -n "__cedar_runs ''" -a check-parse -d 'Reads a policy file without a schema, and counts its policies'
complete -c cedar -n "__cedar_runs ''" -a explain -d 'Explains the number of a refusal, a fault or a warning'
complete -c cedar -n "__cedar_runs ''" -a help -d 'Print this message or the help of the given subcommand(s)'

complete -c cedar -n "__cedar_runs ''" -s h -l help -d 'Print help'
complete -c cedar -n "__cedar_runs ''" -s V -l version -d 'Print version'

complete -c cedar -n "__cedar_runs validate" -s s -l schema -r -F -d 'The schema: JSON of the format that the Cedar language defines; with --language 4 also its schema syntax'
complete -c cedar -n "__cedar_runs validate" -s p -l policies -r -F -d 'The policies: a text of the Cedar language, in UTF-8; with --language 4 also JSON'
complete -c cedar -n "__cedar_runs validate" -s l -l links -r -F -d 'The links: JSON that gives uids for the slots of templates, each link a policy of its own'
complete -c cedar -n "__cedar_runs validate" -l language -x -a '3 4' -d 'Read the language of Cedar 3 (the default) or 4: 4 adds IP addresses, datetimes, durations and other forms of files'
complete -c cedar -n "__cedar_runs validate" -l any-decimal -d 'Accept decimal(..) of any text, which may then err when a request is answered'
complete -c cedar -n "__cedar_runs validate" -l deny-warnings -d 'End with 3 where there are warnings, too'
complete -c cedar -n "__cedar_runs validate" -l report -x -a 'human json' -d 'The report on standard output: json (an object a line) or human, which says all there [default: json]'
complete -c cedar -n "__cedar_runs validate" -l quiet -d 'Explain nothing on standard error'
complete -c cedar -n "__cedar_runs validate" -l diagnostics -x -a 'human json none' -d 'How to explain on standard error: human, json (an object a line) or none [default: human]'
complete -c cedar -n "__cedar_runs validate" -s h -l help -d 'Print help'

complete -c cedar -n "__cedar_runs authorize" -s s -l schema -r -F -d 'The schema: JSON of the format that the Cedar language defines; with --language 4 also its schema syntax'
complete -c cedar -n "__cedar_runs authorize" -s p -l policies -r -F -d 'The policies: a text of the Cedar language, in UTF-8; with --language 4 also JSON'
complete -c cedar -n "__cedar_runs authorize" -s l -l links -r -F -d 'The links: JSON that gives uids for the slots of templates, each link a policy of its own'
complete -c cedar -n "__cedar_runs authorize" -l language -x -a '3 4' -d 'Read the language of Cedar 3 (the default) or 4: 4 adds IP addresses, datetimes, durations and other forms of files'
complete -c cedar -n "__cedar_runs authorize" -s e -l entities -r -F -d 'The entities: JSON of the format that the Cedar language defines'
complete -c cedar -n "__cedar_runs authorize" -l any-decimal -d 'Accept decimal(..) of any text, which may then err when a request is answered'
complete -c cedar -n "__cedar_runs authorize" -l entities-in-lines -d 'Take request lines with a key entities, a list of entities for that line alone; --entities may then be left out'
complete -c cedar -n "__cedar_runs authorize" -l explain-lines -d 'Explain each refused request line on standard error, after all lines were read'
complete -c cedar -n "__cedar_runs authorize" -l quiet -d 'Explain nothing on standard error'
complete -c cedar -n "__cedar_runs authorize" -l diagnostics -x -a 'human json none' -d 'How to explain on standard error: human, json (an object a line) or none [default: human]'
complete -c cedar -n "__cedar_runs authorize" -s h -l help -d 'Print help'

complete -c cedar -n "__cedar_runs why" -s s -l schema -r -F -d 'The schema: JSON of the format that the Cedar language defines; with --language 4 also its schema syntax'
complete -c cedar -n "__cedar_runs why" -s p -l policies -r -F -d 'The policies: a text of the Cedar language, in UTF-8; with --language 4 also JSON'
complete -c cedar -n "__cedar_runs why" -s l -l links -r -F -d 'The links: JSON that gives uids for the slots of templates, each link a policy of its own'
complete -c cedar -n "__cedar_runs why" -l language -x -a '3 4' -d 'Read the language of Cedar 3 (the default) or 4: 4 adds IP addresses, datetimes, durations and other forms of files'
complete -c cedar -n "__cedar_runs why" -s e -l entities -r -F -d 'The entities: JSON of the format that the Cedar language defines'
complete -c cedar -n "__cedar_runs why" -l any-decimal -d 'Accept decimal(..) of any text, which may then err when a request is answered'
complete -c cedar -n "__cedar_runs why" -l all -d 'Show each policy, also those whose scopes the request does not meet'
complete -c cedar -n "__cedar_runs why" -l json -d 'Write a JSON object for each line'
complete -c cedar -n "__cedar_runs why" -l quiet -d 'Explain nothing on standard error'
complete -c cedar -n "__cedar_runs why" -l diagnostics -x -a 'human json none' -d 'How to explain on standard error: human, json (an object a line) or none [default: human]'
complete -c cedar -n "__cedar_runs why" -s h -l help -d 'Print help'

complete -c cedar -n "__cedar_runs ask" -s s -l schema -r -F -d 'The schema: JSON of the format that the Cedar language defines; with --language 4 also its schema syntax'
complete -c cedar -n "__cedar_runs ask" -s p -l policies -r -F -d 'The policies: a text of the Cedar language, in UTF-8; with --language 4 also JSON'
complete -c cedar -n "__cedar_runs ask" -s l -l links -r -F -d 'The links: JSON that gives uids for the slots of templates, each link a policy of its own'
complete -c cedar -n "__cedar_runs ask" -l language -x -a '3 4' -d 'Read the language of Cedar 3 (the default) or 4: 4 adds IP addresses, datetimes, durations and other forms of files'
complete -c cedar -n "__cedar_runs ask" -s e -l entities -r -F -d 'The entities: JSON of the format that the Cedar language defines'
complete -c cedar -n "__cedar_runs ask" -l any-decimal -d 'Accept decimal(..) of any text, which may then err when a request is answered'
complete -c cedar -n "__cedar_runs ask" -l principal -x -d 'Who asks, as a policy writes it: User::"ann"'
complete -c cedar -n "__cedar_runs ask" -l action -x -d 'What is to be done: Action::"write"'
complete -c cedar -n "__cedar_runs ask" -l resource -x -d 'On what: Notebook::"plans"'
complete -c cedar -n "__cedar_runs ask" -s c -l context -r -F -d 'The context of the request: a JSON object'
complete -c cedar -n "__cedar_runs ask" -l request -r -F -d 'The request in place of these four: a JSON object, which may go over several lines'
complete -c cedar -n "__cedar_runs ask" -l quiet -d 'Explain nothing on standard error'
complete -c cedar -n "__cedar_runs ask" -l diagnostics -x -a 'human json none' -d 'How to explain on standard error: human, json (an object a line) or none [default: human]'
complete -c cedar -n "__cedar_runs ask" -s h -l help -d 'Print help'

complete -c cedar -n "__cedar_runs check-parse" -s p -l policies -r -F -d 'The policies: a text of the Cedar language, in UTF-8; with --language 4 also JSON'
complete -c cedar -n "__cedar_runs check-parse" -l language -x -a '3 4' -d 'Read the language of Cedar 3 (the default) or 4: 4 adds IP addresses, datetimes, durations and other forms of files'
complete -c cedar -n "__cedar_runs check-parse" -l quiet -d 'Explain nothing on standard error'
complete -c cedar -n "__cedar_runs check-parse" -l diagnostics -x -a 'human json none' -d 'How to explain on standard error: human, json (an object a line) or none [default: human]'
complete -c cedar -n "__cedar_runs check-parse" -s h -l help -d 'Print help'

complete -c cedar -n "__cedar_runs explain" -s h -l help -d 'Print help'

complete -c cedar -n "__cedar_runs help" -a 'validate authorize why ask check-parse explain help' -d 'Print help for the subcommand(s)'
