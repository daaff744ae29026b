/* The words of the command in English and in Portuguese: one row each, by the part that uses it. The words of refusals
 * are in hollytrot.h. A word with % is a format of printf; both languages take the same arguments in the same order. */
#ifndef WORDS_H
#define WORDS_H

#define WORDS(X) \
    /* messages */ \
    X(STANDARD_INPUT, "standard input", "entrada padrão") \
    X(STANDARD_OUTPUT, "standard output", "saída padrão") \
    X(INPUT_AGAIN, "%s can be read only once", "a %s só pode ser lida uma vez") \
    X(OTHER_VERSION, "the library has version %llu.%llu.%llu and the command %s: install both together", \
      "a biblioteca tem a versão %llu.%llu.%llu e o comando a %s: instale os dois juntos") \
    X(SEE_HELP, "; see hollytrot%s%s --help", "; veja hollytrot%s%s --help") \
    /* the system's words for the errors that users meet */ \
    X(NO_PERMISSION, "Permission denied", "Permissão negada") \
    X(NO_FILE, "No such file or directory", "Arquivo ou diretório inexistente") \
    X(DIRECTORY, "Is a directory", "É um diretório") \
    X(NO_SPACE, "No space left on device", "Não há espaço disponível no dispositivo") \
    X(NO_READER, "Broken pipe", "Pipe quebrado") \
    X(NOT_OPEN, "Bad file descriptor", "Descritor de arquivo inválido") \
    X(INPUT_OUTPUT, "Input/output error", "Erro de entrada/saída") \
    /* arguments */ \
    X(NO_SUBCOMMAND, "a subcommand comes first: board, line or code", \
      "informe primeiro um subcomando: board, line ou code") \
    X(UNKNOWN_SUBCOMMAND, "unknown subcommand %s", "subcomando desconhecido: %s") \
    X(UNKNOWN_OPTION, "unknown option %s", "opção desconhecida: %s") \
    X(OPTION_TWICE, "option --%s is given twice", "a opção --%s está repetida") \
    X(VALUE_MISSING, "option --%s needs a value", "a opção --%s precisa de um valor") \
    X(VALUE_GIVEN, "option --%s takes no value", "a opção --%s não aceita valor") \
    X(UNKNOWN_LANGUAGE, "unknown language %s: it is en or pt", "idioma desconhecido: %s (use en ou pt)") \
    X(ONE_FORMAT, "only one of --json, --csv, --html and --reais can be printed", \
      "use só um dos formatos --json, --csv, --html e --reais") \
    X(NAMES_ALONE, "--names is for --reais and --html", "--names é para --reais e --html") \
    /* refusals of inputs: number, words, place, record, byte */ \
    X(REFUSED_AT_PLACE, "refused %llu (%s) at place %zu of record %llu, byte %llu", \
      "recusa %llu (%s) na posição %zu do registro %llu, byte %llu") \
    X(REFUSED_AT_RECORD, "refused %llu (%s) at record %llu, byte %llu", \
      "recusa %llu (%s) no registro %llu, byte %llu") \
    X(REFUSED_AFTER_RECORD, "refused %llu (%s) after record %llu, byte %llu", \
      "recusa %llu (%s) depois do registro %llu, byte %llu") \
    X(SET_ASIDE, "; set aside from byte %llu on", "; deixado de lado a partir do byte %llu") \
    X(REFUSED_AT_LINE, "refused %llu (%s) at line %llu", "recusa %llu (%s) na linha %llu") \
    /* progress: input, bytes, records, seconds */ \
    X(PROGRESS, "%s: %s bytes, %s records, %llu s", "%s: %s bytes, %s registros, %llu s") \
    /* names of issuers: file, line */ \
    X(NAMES_LINE, "%s: line %llu is not an issuer, a tab and a name", \
      "%s: a linha %llu não é um emissor, uma tabulação e um nome") \
    /* slips: what it is and which one, number, words; then the place, or the digits found and asked */ \
    X(LINE, "line", "linha") \
    X(CODE, "code", "código") \
    X(SLIP_REFUSED_AT, "%s %llu: refused %llu (%s) at place %llu as typed\n", \
      "%s %llu: recusa %llu (%s) na posição %llu do que foi digitado\n") \
    X(SLIP_REFUSED_LENGTH, "%s %llu: refused %llu (%s): found %llu, asked %llu\n", \
      "%s %llu: recusa %llu (%s): encontrados %llu, exigidos %llu\n") \
    X(LINE_ACCEPTED, "accepted", "aceita") \
    X(CODE_ACCEPTED, "accepted", "aceito") \
    X(SLIP_QUANTITY, "quantity %llu", "quantidade %llu") \
    X(SLIP_ISSUER, "  issuer %s  due ", "  emissor %s  vencimento ") \
    X(SLIP_CODE, "  code %.*s\n", "  código %.*s\n") \
    /* behind a refusal, in the table of --reais and on the planner's page */ \
    X(READING_ENDED, "Reading ended there.", "A leitura parou ali.") \
    X(INPUTS_SET_ASIDE, "Inputs refused and set aside: %s; this is the first.", \
      "Entradas recusadas e deixadas de lado: %s; esta é a primeira.") \
    /* the table of --reais */ \
    X(TABLE_ACCEPTED, "Accepted. Return files: %s; records: %s.\n", \
      "Aceito. Arquivos de retorno: %s; registros: %s.\n") \
    X(TABLE_REFUSED, "Refused. ", "Recusado. ") \
    X(TABLE_FILES, "Return files accepted: %s; the table has only these.\n", \
      "Arquivos de retorno aceitos: %s; a tabela só tem estes.\n") \
    X(TABLE_ISSUER, "issuer", "emissor") \
    X(TABLE_NAME, "name", "nome") \
    X(TABLE_PAYMENTS, "payments", "pagamentos") \
    X(TABLE_RECEIVED, "received", "recebido") \
    X(TABLE_TARIFF, "tariff", "tarifa") \
    X(TABLE_TOTAL, "total", "total") \
    /* the planner's page; no word of it has a character that HTML escapes */ \
    X(HTML_LANGUAGE, "en", "pt-BR") \
    X(HTML_DECIMAL, ".", ",") \
    X(HTML_TITLE_ACCEPTED, "Hollytrot board: accepted", "Quadro Hollytrot: aceito") \
    X(HTML_TITLE_REFUSED, "Hollytrot board: refused", "Quadro Hollytrot: recusado") \
    X(HTML_BRAND, "Hollytrot, the board of premiums", "Hollytrot, o quadro dos prêmios") \
    X(HTML_INPUTS, "%s inputs, from the first to the last:", "%s entradas, da primeira à última:") \
    X(HTML_ACCEPTED, "Accepted: every return file is on the board.", \
      "Aceito: todos os arquivos de retorno estão no quadro.") \
    X(HTML_NOTHING, "Accepted: there is no return file in the input.", \
      "Aceito: não há nenhum arquivo de retorno na entrada.") \
    X(HTML_FROM, "From byte %llu of this input on, nothing is on the board.", \
      "A partir do byte %llu desta entrada, nada está no quadro.") \
    X(HTML_COMPLETE, "What the board shows of accepted return files is complete.", \
      "O que o quadro mostra dos arquivos de retorno aceitos está completo.") \
    X(HTML_EMPTY, "The board is empty: no payment was accepted.", \
      "O quadro está vazio: nenhum pagamento foi aceito.") \
    X(HTML_FILES, "Return files accepted", "Arquivos de retorno aceitos") \
    X(HTML_RECORDS, "Records accepted", "Registros aceitos") \
    X(HTML_INSURERS, "Insurers", "Seguradoras") \
    X(HTML_INSURER, "Insurer", "Seguradora") \
    X(HTML_PAYMENTS, "Payments", "Pagamentos") \
    X(HTML_RECEIVED, "Received", "Recebido") \
    X(HTML_TARIFFS, "Tariffs", "Tarifas") \
    X(HTML_PART, "Part of the 32-bit number 4,294,967,296", "Parte do número de 32 bits 4.294.967.296") \
    X(HTML_OLD, "The old engine would have shown", "O sistema antigo teria mostrado") \
    X(HTML_TOTAL, "Total", "Total") \
    X(HTML_CAPTION, "What each insurer received, and what the old engine would have shown", \
      "O que cada seguradora recebeu, e o que o sistema antigo teria mostrado") \
    X(HTML_NONE_WRAPPED, "The old engine would have shown the right sum of every insurer.", \
      "O sistema antigo teria mostrado a soma certa de todas as seguradoras.") \
    X(HTML_TOTAL_WRAPPED, "The old engine would have shown the right sum of every insurer, and a wrong total.", \
      "O sistema antigo teria mostrado a soma certa de todas as seguradoras, e um total errado.") \
    X(HTML_SOME_WRAPPED, "The old engine would have shown a wrong sum for %s of %s insurers.", \
      "O sistema antigo teria mostrado uma soma errada para %s de %s seguradoras.") \
    X(HTML_WRAPPED, "wrapped", "estourou") \
    X(HTML_WRAPPED_TIMES, "wrapped %s times", "estourou %s vezes") \
    /* the grey lines of the bars, from R$ 1 on, each a thousand times the one before */ \
    X(HTML_THOUSAND, "thousand", "mil") \
    X(HTML_MILLION, "million", "milhão") \
    X(HTML_BILLION, "billion", "bilhão") \
    X(HTML_TRILLION, "trillion", "trilhão") \
    /* the legend and the notes */ \
    X(HTML_KEY_SHOWN, "what the old engine would have shown", "o que o sistema antigo teria mostrado") \
    X(HTML_KEY_LOST, "what it would have lost", "o que ele teria perdido") \
    X(HTML_KEY_LIMIT, "R$\u00a042.949.672,96, where it began again at zero", \
      "R$\u00a042.949.672,96, onde ele recomeçava do zero") \
    X(HTML_NOTES, "How to read this board", "Como ler este quadro") \
    X(HTML_NOTE_RECEIVED, \
      "What the payments of accepted return files received. These sums are right: no sum of this engine can wrap.", \
      "O que os pagamentos dos arquivos de retorno aceitos receberam. Estas somas estão certas: nenhuma soma deste " \
      "sistema pode estourar.") \
    X(HTML_NOTE_PART, \
      "The old engine kept each sum of centavos in 32 bits, which hold 4,294,967,296 different numbers. From 100 " \
      "percent on the sum did not fit. The percentage is rounded down.", \
      "O sistema antigo guardava cada soma de centavos em 32 bits, nos quais cabem 4.294.967.296 números diferentes. " \
      "A partir de 100 por cento a soma não cabia. A porcentagem é arredondada para baixo.") \
    X(HTML_BAR, "Bar", "Barra") \
    X(HTML_NOTE_BAR, \
      "The sum on a logarithmic scale: from R$\u00a01 on each grey line is a thousand times the one before it, so " \
      "that small and large insurers are both seen. The striped part is what the old engine would have lost.", \
      "A soma em escala logarítmica: a partir de R$\u00a01 cada linha cinza vale mil vezes a anterior, para que se " \
      "vejam seguradoras pequenas e grandes. A parte listrada é o que o sistema antigo teria perdido.") \
    X(HTML_LIMIT, "Red line", "Linha vermelha") \
    X(HTML_NOTE_LIMIT, \
      "The thick line across all bars, at R$\u00a042.949.672,96. A sum of the old engine that reached it began again " \
      "at zero, and went on from there.", \
      "A linha grossa que cruza todas as barras, em R$\u00a042.949.672,96. Uma soma do sistema antigo que chegava a " \
      "ela recomeçava do zero e seguia dali.") \
    X(HTML_NOTE_OLD, \
      "The received sum, less R$\u00a042.949.672,96 for each time that it passed the red line. The word “wrapped” " \
      "marks the sums that would have been wrong.", \
      "A soma recebida, menos R$\u00a042.949.672,96 para cada vez que passou da linha vermelha. A palavra " \
      "“estourou” marca as somas que estariam erradas.")

enum word {
#define WORD(name, english, portuguese) WORD_##name,
    WORDS(WORD)
#undef WORD
};

/* The word in the language. */
const char *word(enum word word);

#endif
