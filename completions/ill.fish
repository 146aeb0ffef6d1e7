# Completion of ill(1) in fish: commands, options, roles, files, their loans, and the first words of actions.
# Written by tools/ill/texts/words.py: change the text there, and run `make words`.

# The words before the cursor, without the option that may stand before the command. A command of a shelf is one word,
# such as `shelf-act`.
function __ill_typed
    set -l words (commandline -opc)
    if test "$words[2]" = --explain
        set -e words[2]
    end
    if test "$words[2]" = shelf; and test "$words[3]" = --explain
        set -e words[3]
    end
    if test "$words[2]" = shelf; and test (count $words) -gt 2
        set -e words[2]
        set words[2] shelf-$words[2]
    end
    string join \n -- $words
end

# The kind of what may come next, a line, the command, a line, and the arguments that stand between the command and the
# cursor, options left out, a line each. The kind is `any` (an option too), `argument` (no option any more), `day`,
# `count`, `text`, `state` or `file` (the value of an option).
function __ill_read
    set -l words (__ill_typed)
    set -l wanted any
    set -l arguments
    for word in $words[3..-1]
        switch $wanted-$word
            case 'day-*' 'count-*' 'text-*' 'state-*' 'file-*'
                set wanted any
            case any---
                set wanted argument
            case any---today any---due-before any---since any---from any---to
                set wanted day
            case any---by any---seen any---find
                set wanted text
            case any---ahead any---last
                set wanted count
            case any---state
                set wanted state
            case any---key any---copy any---beat
                set wanted file
            case 'any--*'
            case '*'
                set -a arguments $word
                if contains -- "$words[2]-"(count $arguments) act-4 shelf-act-4
                    set wanted argument
                end
        end
    end
    string join \n -- $wanted "$words[2]" $arguments
end

# __ill_at COUNT COMMAND..: whether an argument of one of these commands comes next, after COUNT others.
function __ill_at
    set -l read (__ill_read)
    not contains -- $read[1] day count text state file; and test (count $read[3..-1]) = $argv[1]
    and contains -- "$read[2]" $argv[2..-1]
end

# __ill_any COMMAND..: whether an argument of one of these commands comes next, after any number.
function __ill_any
    set -l read (__ill_read)
    not contains -- $read[1] day count text state file
    and contains -- "$read[2]" $argv
end

# __ill_option KIND COMMAND..: whether an option of one of these commands may come next, or its value of this kind.
function __ill_option
    set -l read (__ill_read)
    contains -- $read[1] any $argv[1]
    and contains -- "$read[2]" $argv[2..-1]
end

# What `ill status` tells of the loans in a file, or of a shelf.
function __ill_status
    set -l shelf (string match -r '^shelf' -- (__ill_read)[2])
    ill $shelf status -- (string replace -r '^~/' "$HOME/" -- $argv[1]) 2>/dev/null
end

# The groups of the loans in the file; after a group, its transactions.
function __ill_loans
    set -l arguments (__ill_read)[3..-1]
    set -l group
    for line in (__ill_status $arguments[1])
        set -l words (string split -m 1 ' ' -- $line)
        switch (count $arguments)-$words[1]
            case 1-group
                string join \n -- $words[2]
            case 2-group
                set group $words[2]
            case 2-transaction
                if test "$group" = "$arguments[2]"
                    string join \n -- $words[2]
                end
        end
    end | sort -u
end

# The words of the role of the file or the shelf; of both roles if it has no loan.
function __ill_words
    set -l requester request cancel reply receive renew return
    set -l responder answer cancel-reply ship renew-answer overdue recall check-in expire
    switch (__ill_status (__ill_read)[3] | string match -r '^role .*')[1]
        case 'role requester'
            string join \n $requester
        case 'role responder'
            string join \n $responder
        case '*'
            string join \n $requester $responder
    end
end

complete -c ill -f
complete -c ill -n "__ill_at 0 ''" -a new -d 'Begin a desk of one role, in a file'
complete -c ill -n "__ill_at 0 ''" -a act -d 'Perform one action in a loan, and save it'
complete -c ill -n "__ill_at 0 ''" -a list -d 'List the loans of desks by the work of the day'
complete -c ill -n "__ill_at 0 ''" -a news -d 'Show what came to desks, in the order in which it came'
complete -c ill -n "__ill_at 0 ''" -a loan -d 'Show all of one loan: request, messages, what may be done'
complete -c ill -n "__ill_at 0 ''" -a note -d 'Keep a note on one loan, for staff alone'
complete -c ill -n "__ill_at 0 ''" -a slip -d 'Write a slip of one loan, to print and to lay in its item'
complete -c ill -n "__ill_at 0 ''" -a status -d 'Show how each loan in a file stands'
complete -c ill -n "__ill_at 0 ''" -a report -d 'Write a page for a browser of the loans of desks'
complete -c ill -n "__ill_at 0 ''" -a figures -d 'Count the loans of desks that were asked in a span of days'
complete -c ill -n "__ill_at 0 ''" -a take -d 'Take the APDUs on standard input, and save what they change'
complete -c ill -n "__ill_at 0 ''" -a send -d 'Write the bytes of one message of a loan'
complete -c ill -n "__ill_at 0 ''" -a inbox -d 'Take the message files of a folder, and save the desk once'
complete -c ill -n "__ill_at 0 ''" -a outbox -d 'Put the messages that want sending into a folder'
complete -c ill -n "__ill_at 0 ''" -a exchange -d 'Take the message files of a folder, and send into another'
complete -c ill -n "__ill_at 0 ''" -a key -d 'Make, show or read a key, which two libraries hold'
complete -c ill -n "__ill_at 0 ''" -a verify -d 'Read a desk, and show what it has or what is wrong with it'
complete -c ill -n "__ill_at 0 ''" -a show -d 'Show each APDU on standard input'
complete -c ill -n "__ill_at 0 ''" -a check -d 'Check the APDUs on standard input and count them'
complete -c ill -n "__ill_at 0 ''" -a simulate -d 'Perform a script of both sides of a loan, from standard input'
complete -c ill -n "__ill_at 0 ''" -a simulate-desks -d 'Perform a script of two desks, from standard input'
complete -c ill -n "__ill_at 0 ''" -a shelf -d 'Keep a folder of desks, one for each group of loans'
complete -c ill -n "__ill_at 0 ''" -a help -d 'Print the help of a command'
complete -c ill -n '__ill_at 0 help' -a 'new act list news loan note slip status report figures take send inbox outbox exchange key verify show check simulate simulate-desks shelf help'
complete -c ill -n '__ill_at 0 shelf' -a new -d 'Begin a shelf of one role, in a folder'
complete -c ill -n '__ill_at 0 shelf' -a act -d 'Perform one action in a loan, at the desk of its group'
complete -c ill -n '__ill_at 0 shelf' -a loan -d 'Show all of one loan: request, messages, what may be done'
complete -c ill -n '__ill_at 0 shelf' -a note -d 'Keep a note on one loan, beside the desk of its group'
complete -c ill -n '__ill_at 0 shelf' -a slip -d 'Write a slip of one loan, to print and to lay in its item'
complete -c ill -n '__ill_at 0 shelf' -a status -d 'Show how each loan stands, desk by desk'
complete -c ill -n '__ill_at 0 shelf' -a take -d 'Take the APDUs on standard input, each at the desk of its group'
complete -c ill -n '__ill_at 0 shelf' -a send -d 'Write the bytes of one message of a loan'
complete -c ill -n '__ill_at 0 shelf' -a inbox -d 'Take the message files of a folder, each at the desk of its group'
complete -c ill -n '__ill_at 0 shelf' -a outbox -d 'Put the messages of all desks that want sending into a folder'
complete -c ill -n '__ill_at 0 shelf' -a exchange -d 'Take the message files of a folder, and send into another'
complete -c ill -n '__ill_at 0 shelf' -a retire -d 'Replace a desk whose loans are over by a mark of its group'
complete -c ill -n '__ill_at 0 shelf' -a help -d 'Print the help of a command'
complete -c ill -n '__ill_at 0 shelf-help' -a 'new act loan note slip status take send inbox outbox exchange retire help'
complete -c ill -n '__ill_at 0 new act loan note slip status take send inbox outbox exchange key verify' -F
complete -c ill -n '__ill_any list news report figures' -F
complete -c ill -n '__ill_at 0 shelf-new shelf-act shelf-loan shelf-note shelf-slip shelf-status shelf-take shelf-send shelf-inbox shelf-outbox shelf-exchange shelf-retire' -x -a '(__fish_complete_directories)'
complete -c ill -n '__ill_at 1 inbox outbox exchange shelf-inbox shelf-outbox shelf-exchange' -x -a '(__fish_complete_directories)'
complete -c ill -n '__ill_at 2 exchange shelf-exchange' -x -a '(__fish_complete_directories)'
complete -c ill -n '__ill_at 1 new shelf-new' -a 'requester responder'
complete -c ill -n '__ill_at 1 act loan note slip send shelf-act shelf-loan shelf-note shelf-slip shelf-send shelf-retire' -a '(__ill_loans)'
complete -c ill -n '__ill_at 2 act loan note slip send shelf-act shelf-loan shelf-note shelf-slip shelf-send' -a '(__ill_loans)'
complete -c ill -n '__ill_at 3 act shelf-act' -a '(__ill_words)'
complete -c ill -n "__ill_option any '' new act list news loan note slip status report figures take send inbox outbox exchange key verify show check simulate simulate-desks shelf shelf-new shelf-act shelf-loan shelf-note shelf-slip shelf-status shelf-take shelf-send shelf-inbox shelf-outbox shelf-exchange shelf-retire" -l explain -d 'Say more of what is wrong'
complete -c ill -n "__ill_option any '' new act list news loan note slip status report figures take send inbox outbox exchange key verify show check simulate simulate-desks shelf shelf-new shelf-act shelf-loan shelf-note shelf-slip shelf-status shelf-take shelf-send shelf-inbox shelf-outbox shelf-exchange shelf-retire" -s h -l help -d 'Print help'
complete -c ill -n "__ill_option any ''" -s V -l version -d 'Print the version'
complete -c ill -n '__ill_option day act shelf-act' -l today -x -d 'The day of the action, as 20250301; a responder needs it'
complete -c ill -n '__ill_option text act take inbox exchange shelf-act shelf-take shelf-inbox shelf-exchange' -l by -x -d 'The name of who gives the command, for FILE.diary'
complete -c ill -n '__ill_option text act shelf-act' -l seen -x -d 'Act only if this is what was shown of the loan'
complete -c ill -n '__ill_option any act shelf-act' -l dry-run -d 'Show what would come, and save nothing'
complete -c ill -n '__ill_option any act shelf-act' -l long -d 'Write the item of the loan below the line'
complete -c ill -n '__ill_option any list' -l open -d 'Leave out the loans that are over'
complete -c ill -n '__ill_option any list' -l mine -d 'List only the loans that want a hand'
complete -c ill -n '__ill_option day list' -l today -x -d 'The day of the work, as 20250301'
complete -c ill -n '__ill_option count list' -l ahead -x -d 'Days within which a due date is soon, or 7'
complete -c ill -n '__ill_option day list' -l due-before -x -d 'List only the loans that are due before this day'
complete -c ill -n '__ill_option state list' -l state -x -a 'IDLE PENDING IN-PROCESS CONDITIONAL CANCEL-PENDING CANCELLED NOT-SUPPLIED SHIPPED RECEIVED RENEW/PENDING OVERDUE RENEW/OVERDUE NOT-RECEIVED/OVERDUE RECALL RETURNED CHECKED-IN' -d 'List only the loans in this state, as SHIPPED'
complete -c ill -n '__ill_option text list' -l find -x -d 'List only the loans with these words in a text'
complete -c ill -n '__ill_option day list news report' -l since -x -d 'Show what came on this day or later, as 20250301'
complete -c ill -n '__ill_option any list' -l actions -d 'Show the actions that are possible in each loan'
complete -c ill -n '__ill_option any list' -l notes -d 'Show the note on each loan below it'
complete -c ill -n '__ill_option any list' -l since-when -d 'Show below each loan the day of its last message, by the diary'
complete -c ill -n '__ill_option any list news loan status exchange verify show shelf-loan shelf-status shelf-exchange' -l json -d 'Write objects of JSON, one on a line'
complete -c ill -n '__ill_option count news' -l last -x -d 'Show only the last N messages, 1 to 255'
complete -c ill -n '__ill_option any loan shelf-loan' -l picture -d 'Draw the messages of the loan, for Mermaid'
complete -c ill -n '__ill_option day report' -l today -x -d 'The day of the report, as 20250301'
complete -c ill -n '__ill_option day figures' -l from -x -d 'The first day of the span, as 20250301'
complete -c ill -n '__ill_option day figures' -l to -x -d 'The last day of the span, which is in it, too'
complete -c ill -n '__ill_option any figures' -l csv -d 'Write records of CSV, one for each desk'
complete -c ill -n '__ill_option any take shelf-take' -l long -d 'Show which message each was, and what it said'
complete -c ill -n '__ill_option any take shelf-take' -l keep -d 'Keep each message that is taken, in FILE.came'
complete -c ill -n '__ill_option day take inbox exchange shelf-take shelf-inbox shelf-exchange' -l today -x -d 'The day of the run, as 20250301'
complete -c ill -n '__ill_option file take send shelf-take shelf-send' -l key -r -F -d 'Open or seal a letter with the key in this file'
complete -c ill -n '__ill_option file inbox outbox exchange shelf-inbox shelf-outbox shelf-exchange' -l key -r -F -d 'Carry all messages in letters sealed with the key in this file'
complete -c ill -n '__ill_option any outbox shelf-outbox' -l stream -d 'Write the messages to standard output'
complete -c ill -n '__ill_option any exchange shelf-exchange' -l overdue -d 'Issue an Overdue for each loan past its due date'
complete -c ill -n '__ill_option any exchange shelf-exchange' -l expire -d 'End each request that is past its last day'
complete -c ill -n '__ill_option file exchange' -l copy -r -F -d 'Copy the desk to this file before anything is sent'
complete -c ill -n '__ill_option file exchange shelf-exchange' -l beat -r -F -d 'Make this heartbeat anew when the run has ended'
complete -c ill -n '__ill_option any key' -l show -d 'Write the key in groups, for the other library'
complete -c ill -n '__ill_option any key' -l read -d 'Read the key in groups on standard input'
complete -c ill -n '__ill_option any shelf-act' -l new-group -d 'Begin the group of the loan, if the shelf has none'
complete -c ill -n '__ill_option file shelf-exchange' -l copy -r -F -d 'Copy each desk into this folder before it sends'
