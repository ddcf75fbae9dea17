# The questions to columns in runs of R's S4Vectors (class Rle), as columns.py starts it:
#     Rscript rle.R TURNS FOLDER..
# Numbers are doubles, which have each integer to 2^53: R has no integers of 64 bits. asked.py says what is printed.
suppressMessages(suppressWarnings(library(IRanges)))
limit <- 500
most_seconds <- 20
words <- commandArgs(trailingOnly = TRUE)
turns <- as.integer(words[1])

# The processor time of this process in seconds, to the microsecond: Linux counts it when the process sleeps, where
# proc.time() has milliseconds.
clock <- function() {
    Sys.sleep(0.001)
    as.numeric(strsplit(readLines("/proc/self/schedstat", warn = FALSE), " ")[[1]][1]) / 1e9
}
kib <- function(name) {
    line <- grep(paste0("^", name, ":"), readLines("/proc/self/status"), value = TRUE)
    as.numeric(gsub("[^0-9]", "", line))
}
report <- function(folder, question, seconds, more, answer) {
    times <- paste(sprintf("%.4f", seconds * 1000), collapse = " ")
    numbers <- paste(format(answer, scientific = FALSE, trim = TRUE, digits = 16), collapse = " ")
    cat(basename(folder), question, times, more, paste0(numbers, "\n"), sep = "\t")
}
items <- function(folder, name) {
    path <- file.path(folder, name)
    readBin(path, "integer", file.size(path) / 4, size = 4)
}
read_rows <- function(folder, name) {
    rep(as.numeric(items(folder, paste0(name, ".values"))), items(folder, paste0(name, ".lengths")))
}
places_of <- function(count) sort(unique(c(seq(0, count - 1, by = max(1, count %/% 10)), count - 1))) + 1
pairs <- function(keys, answers) as.vector(rbind(keys, answers))

questions <- list(
    add = function(t) sum(t$level + t$inflow),
    compare = function(t) sum(t$level < t$inflow),
    filter = function(t) {
        kept <- t$level[t$inflow < limit]
        c(length(kept), sum(kept))
    },
    group = function(t) pairs(runValue(t$day), viewSums(Views(t$level, start = start(t$day), end = end(t$day)))),
    counts = function(t) {
        counts <- table(t$level)
        pairs(as.numeric(names(counts)), as.vector(counts))
    },
    sort = function(t) as.vector(sort(t$level)[t$places]),
    running = function(t) as.vector(cumsum(t$level)[t$places])
)
measured <- function(call) {
    gc()
    try(writeLines("5", "/proc/self/clear_refs"), silent = TRUE)
    before <- kib("VmRSS")
    begin <- clock()
    answer <- call()
    list(seconds = clock() - begin, answer = answer, more = max(0, kib("VmHWM") - before))
}

cat("tool", paste0("S4Vectors ", packageVersion("S4Vectors"), ", R ", getRversion(), "\n"), sep = "\t")
for (folder in words[-1]) {
    rows <- lapply(c(level = "level", inflow = "inflow", day = "day"), function(name) read_rows(folder, name))
    count <- length(rows$level)
    made <- measured(function() lapply(rows, Rle))
    columns <- c(made$answer, list(places = places_of(count)))
    rm(rows)
    report(folder, "load", made$seconds, made$more, count)
    report(folder, "bytes", 0, 0, sum(sapply(columns[c("level", "inflow", "day")], object.size)))
    for (question in names(questions)) {
        first <- measured(function() questions[[question]](columns))
        seconds <- first$seconds
        while (length(seconds) < turns && sum(seconds) + tail(seconds, 1) < most_seconds) {
            gc()
            begin <- clock()
            questions[[question]](columns)
            seconds <- c(seconds, clock() - begin)
        }
        report(folder, question, seconds, first$more, first$answer)
    }
}
