/* The texts of --help, in English and in Portuguese. */
#include "command.h"

/* Options of several subcommands. */
#define AGREED "  --agreed FILE     issuers that agreed on due dates, one a line: 1-3659\n"
#define AGREED_PT "  --agreed ARQUIVO   emissores com vencimento acordado, um por linha: 1-3659\n"
#define LANG "  --lang en|pt      the language\n"
#define LANG_PT "  --lang en|pt       o idioma\n"

const char *const command_help[2] = {
    "hollytrot SUBCOMMAND [OPTION..] [OPERAND..]\n"
    "\n"
    "  board [FILE..]    takes return files and prints the board of the insurers\n"
    "  line [LINE..]     checks typed lines, the 48 digits of a slip\n"
    "  code [CODE..]     checks barcodes of 44 digits\n"
    "\n"
    "Options of every subcommand:\n"
    AGREED
    "  --lang en|pt      the language of messages; else LC_ALL, LC_MESSAGES or LANG\n"
    "  --help            what the subcommand does\n"
    "  --                ends the options\n"
    "\n"
    "hollytrot --version prints the version.\n"
    "\n"
    "A FILE may be -, standard input. Exit status: 0 if all was accepted, 1 if\n"
    "something was refused, 2 if reading or writing failed or the arguments are\n"
    "wrong. A refusal is a line on standard error, with a number and a place.\n",

    "hollytrot SUBCOMANDO [OPÇÃO..] [OPERANDO..]\n"
    "\n"
    "  board [ARQUIVO..]  lê arquivos de retorno e imprime o quadro das seguradoras\n"
    "  line [LINHA..]     confere linhas digitáveis, os 48 dígitos de uma guia\n"
    "  code [CÓDIGO..]    confere códigos de barras de 44 dígitos\n"
    "\n"
    "Opções de todos os subcomandos:\n"
    AGREED_PT
    "  --lang en|pt       o idioma das mensagens; senão LC_ALL, LC_MESSAGES ou LANG\n"
    "  --help             o que o subcomando faz\n"
    "  --                 encerra as opções\n"
    "\n"
    "hollytrot --version imprime a versão.\n"
    "\n"
    "Um ARQUIVO pode ser -, a entrada padrão. Código de saída: 0 se tudo foi aceito,\n"
    "1 se algo foi recusado, 2 se a leitura ou a escrita falhou ou os argumentos\n"
    "estão errados. Uma recusa é uma linha na saída de erros, com número e posição.\n",
};

const char *const board_help[2] = {
    "hollytrot board [OPTION..] [FILE..]\n"
    "\n"
    "Takes the return files of each FILE, or of standard input if there is none, and\n"
    "prints the board: payments, centavos and tariffs of each insurer. The first\n"
    "refusal ends the reading; the board then has the return files before it.\n"
    "\n"
    "  (no format)       quadro's page: lines of name=number\n"
    "  --json            the inputs, their return files and the board\n"
    "  --csv             a row for each insurer\n"
    "  --html            the planner's page, for a browser\n"
    "  --reais           a table for people, in reais\n"
    "  --names FILE      names of issuers for --reais and --html, one a line:\n"
    "                    1-3659, a tab, the name\n"
    "  --keep-going      sets a refused FILE aside and takes up at the next one;\n"
    "                    the status is 1 all the same\n"
    AGREED
    LANG,

    "hollytrot board [OPÇÃO..] [ARQUIVO..]\n"
    "\n"
    "Lê os arquivos de retorno de cada ARQUIVO, ou da entrada padrão se não houver\n"
    "nenhum, e imprime o quadro: pagamentos, centavos e tarifas de cada seguradora.\n"
    "A primeira recusa encerra a leitura; o quadro tem então os arquivos de retorno\n"
    "anteriores.\n"
    "\n"
    "  (sem formato)      a página do programa quadro: linhas de nome=número\n"
    "  --json             as entradas, seus arquivos de retorno e o quadro\n"
    "  --csv              uma linha por seguradora\n"
    "  --html             a página do planejamento, para um navegador\n"
    "  --reais            uma tabela para leitura, em reais\n"
    "  --names ARQUIVO    nomes dos emissores para --reais e --html, um por linha:\n"
    "                     1-3659, uma tabulação, o nome\n"
    "  --keep-going       deixa de lado um ARQUIVO recusado e continua no seguinte;\n"
    "                     o código de saída é 1 mesmo assim\n"
    AGREED_PT
    LANG_PT,
};

const char *const line_help[2] = {
    "hollytrot line [OPTION..] [LINE..]\n"
    "\n"
    "Checks typed lines, 48 digits each; without a LINE, and for -, those of standard\n"
    "input, one a line. Blanks, tabs, dots and hyphens are passed over. An accepted\n"
    "line is printed with its value, issuer, due date and barcode; a refused one is\n"
    "reported on standard error, with a mark under the place as typed.\n"
    "\n"
    AGREED
    LANG,

    "hollytrot line [OPÇÃO..] [LINHA..]\n"
    "\n"
    "Confere linhas digitáveis, de 48 dígitos cada; sem LINHA, e para -, as da\n"
    "entrada padrão, uma por linha. Espaços, tabulações, pontos e hifens são\n"
    "ignorados. Uma linha aceita é impressa com valor, emissor, vencimento e código\n"
    "de barras; uma recusada é informada na saída de erros, com uma marca sob a\n"
    "posição no texto digitado.\n"
    "\n"
    AGREED_PT
    LANG_PT,
};

const char *const code_help[2] = {
    "hollytrot code [OPTION..] [CODE..]\n"
    "\n"
    "Checks barcodes, 44 digits each; without a CODE, and for -, those of standard\n"
    "input, one a line. Blanks, tabs, dots and hyphens are passed over. An accepted\n"
    "barcode is printed with its value, issuer and due date; a refused one is\n"
    "reported on standard error, with a mark under the place as typed.\n"
    "\n"
    AGREED
    LANG,

    "hollytrot code [OPÇÃO..] [CÓDIGO..]\n"
    "\n"
    "Confere códigos de barras, de 44 dígitos cada; sem CÓDIGO, e para -, os da\n"
    "entrada padrão, um por linha. Espaços, tabulações, pontos e hifens são\n"
    "ignorados. Um código aceito é impresso com valor, emissor e vencimento; um\n"
    "recusado é informado na saída de erros, com uma marca sob a posição no texto\n"
    "digitado.\n"
    "\n"
    AGREED_PT
    LANG_PT,
};
