# Instructions a shot, by the difference of two profiles of one program, the second with `shots` shots more than the first, so that
# start-up does not count. Prints five numbers: the whole program's; those of the function `shot` with all that it calls; and of
# these the angles', the sums' and the arguments'. `-` stands for what is not found.
#
# usage: awk -v shots=N -v shot=SYMBOL -v lists=N -f parts.awk FEW MANY
#        lists: how many series a shot sums
#
# How each is found, and when not:
#   angles      calls of vector_angle::angle, three a shot, or where that is inlined of the search below it, one for each angle. Another
#               number of calls means that the compiler inlined some: not found
#   sums        calls of the sums of `series` from outside that crate, one for each list, else not found. What is inlined into a sum
#               counts with it, the sines above all
#   arguments   calls of arguments::arguments_of, one a shot; not found where it is inlined. The full edition's four more stand
#               elsewhere

function enter(part, number, cost) {
    calls[part] += number
    costs[part] += cost
}

function found(part, number) {
    return calls[part] == number * shots ? sprintf("%.0f", costs[part] / shots) : "-"
}

FNR == 1 { sign = NR == 1 ? -1 : 1 }
/^summary:/ { all += sign * $2 }
/^fn=/ { caller = substr($0, 4) }
/^cfn=/ { callee = substr($0, 5) }

# calls=NUMBER ..., and on the next line the cost of these calls with all below them.
/^calls=/ {
    number = sign * substr($1, 7)
    getline
    cost = sign * $3
    if (callee == shot) enter("shot", number, cost)
    if (callee ~ /^vector_angle::(angle|Vector::quadrant_angle)$/ && caller !~ /^vector_angle::/) enter("angles", number, cost)
    if (callee ~ /^series::.*sum$/ && caller !~ /^series::/) enter("sums", number, cost)
    if (callee == "arguments::arguments_of") enter("arguments", number, cost)
}

END { printf "%.0f %s %s %s %s\n", all / shots, found("shot", 1), found("angles", 3), found("sums", lists), found("arguments", 1) }
