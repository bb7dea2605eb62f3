package dialect

import "bytes"

// LineLimit is the most bytes of a client's line before its LF that the server takes, a CR before it counted.
const LineLimit = 8192

// request is a line of a client as the protocol reads it: [spaces] [#id spaces] COMMAND arguments.
type request struct {
	tag  []byte // the message id as answers carry it, "#7 " without leading zeros; empty where there is none
	word []byte // the command word
	rest []byte // all behind the word: a space first, unless it is empty, and no CR at the end
	bad  bool   // a CR is left in the line, so that the server answers nothing but "Bad byte"
}

// readRequest reads a line that has no LF.
func readRequest(line []byte) request {
	line = bytes.TrimSuffix(line, []byte("\r"))
	tag, line := readTag(skipSpaces(line))
	end := bytes.IndexByte(line, ' ')
	if end < 0 {
		end = len(line)
	}
	return request{tag: tag, word: line[:end], rest: line[end:]}
}

// check says whether the arguments may be looked at. It is asked for known words alone, since most lines have none.
func (r *request) check() bool {
	r.bad = bytes.IndexByte(r.word, '\r') >= 0 || bytes.IndexByte(r.rest, '\r') >= 0
	return !r.bad
}

func skipSpaces(line []byte) []byte {
	for len(line) > 0 && line[0] == ' ' {
		line = line[1:]
	}
	return line
}

// readTag takes a message id off the head of a line: `#`, 1 to 10 digits of value at most 2147483647, a space or more.
func readTag(line []byte) (tag, rest []byte) {
	if len(line) == 0 || line[0] != '#' {
		return nil, line
	}
	end := bytes.IndexByte(line, ' ')
	if end < 2 {
		return nil, line
	}
	digits := line[1:end]
	value, good := readNumber(digits)
	if !good || digits[0] == '-' || value > 2147483647 {
		return nil, line
	}
	for len(digits) > 1 && digits[0] == '0' {
		digits = digits[1:]
	}
	if len(digits) == end-1 {
		return line[:end+1], skipSpaces(line[end:])
	}
	tag = append(append([]byte{'#'}, digits...), ' ')
	return tag, skipSpaces(line[end:])
}

// readNumber reads an optional `-` and 1 to 10 digits.
func readNumber(word []byte) (value int64, good bool) {
	digits := bytes.TrimPrefix(word, []byte("-"))
	if len(digits) == 0 || len(digits) > 10 {
		return 0, false
	}
	for _, digit := range digits {
		if digit < '0' || digit > '9' {
			return 0, false
		}
		value = value*10 + int64(digit-'0')
	}
	if len(digits) < len(word) {
		value = -value
	}
	return value, true
}

// nextWord takes a word off the head of arguments, behind one or more spaces. A tab in it makes it none that the
// server reads; no word is left where only spaces are.
func nextWord(rest []byte) (word, behind []byte, good bool) {
	rest = skipSpaces(rest)
	end := bytes.IndexByte(rest, ' ')
	if end < 0 {
		end = len(rest)
	}
	word = rest[:end]
	return word, rest[end:], len(word) > 0 && bytes.IndexByte(word, '\t') < 0
}

// nextNumber takes a number of these bounds off the head of arguments.
func nextNumber(rest []byte, least, most int64) (value int64, behind []byte, good bool) {
	word, behind, good := nextWord(rest)
	if !good {
		return 0, behind, false
	}
	value, good = readNumber(word)
	return value, behind, good && value >= least && value <= most
}

// Name says whether a word is 1 to 20 letters, digits, `_`, `[` and `]`.
func Name(word string) bool {
	if len(word) < 1 || len(word) > 20 {
		return false
	}
	for _, letter := range []byte(word) {
		switch {
		case letter >= 'a' && letter <= 'z', letter >= 'A' && letter <= 'Z', letter >= '0' && letter <= '9':
		case letter == '_', letter == '[', letter == ']':
		default:
			return false
		}
	}
	return true
}

// joinQuestion reads the arguments of JOINBATTLE: 0..2147483647 battleID, [word password], [word scriptPassword].
func joinQuestion(rest []byte) (battle int64, behind []byte, good bool) {
	battle, behind, good = nextNumber(rest, 0, 2147483647)
	left := behind
	for i := 0; i < 2; i++ {
		var word []byte
		var whole bool
		word, left, whole = nextWord(left)
		good = good && (whole || len(word) == 0)
	}
	return battle, behind, good
}

// openQuestion says whether these are arguments of OPENBATTLE, so that the server does not refuse them at reading.
func openQuestion(rest []byte) bool {
	const wideLeast, wideMost = -2147483648, 4294967295
	good := true
	number := func(least, most int64) {
		if good {
			_, rest, good = nextNumber(rest, least, most)
		}
	}
	number(0, 1)
	number(0, 2)
	if good {
		_, rest, good = nextWord(rest)
	}
	number(0, 65535)
	number(0, 65535)
	for i := 0; i < 3; i++ {
		number(wideLeast, wideMost)
	}
	return good && len(rest) > 0 && bytes.Count(rest, []byte("\t")) >= 4
}

// spoken reads `name` and a text behind exactly one space.
func spoken(rest []byte) (name, text []byte, good bool) {
	name, behind, good := nextWord(rest)
	if !good || len(behind) == 0 {
		return name, nil, false
	}
	return name, behind[1:], true
}

// readReply reads a line of the server: [#id ]COMMAND arguments.
func readReply(line []byte) (tag, word, rest []byte) {
	if len(line) > 0 && line[0] == '#' {
		if end := bytes.IndexByte(line, ' '); end > 0 {
			tag, line = line[:end+1], line[end+1:]
		}
	}
	end := bytes.IndexByte(line, ' ')
	if end < 0 {
		return tag, line, nil
	}
	return tag, line[:end], line[end+1:]
}
